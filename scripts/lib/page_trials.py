"""Trials of the page of a desk in a real browser: every verb, refusals in words, the closed incidents, records."""
import json
import re

from desk_crates import text_of

SENT = "document.querySelector('#sent li')"
ROW = "[...document.querySelectorAll('#incident-table tbody tr')].find(r => r.textContent.includes(%s))"
# marks that turn texts round, and controls: what the page shows in their place, and what of it has one still
MARKED, CLEANED = 'Elm \\u202eegdirB\\u0007\\u061c', 'Elm \ufffdegdirB\ufffd\ufffd'
WITH_MARKS = r"""[...document.querySelectorAll('*')].flatMap((e) => [e.title, e.getAttribute('aria-label'),
  ...[...e.childNodes].filter((n) => n.nodeType === 3).map((n) => n.data)]).concat(document.title)
  .filter((text) => /[\0-\x08\x0b-\x1f\u061c\u200e\u200f\u202a-\u202e\u2066\u2067]/.test(text))"""
DIALOG = "document.getElementById('dialog').open"
RECORD = "document.getElementById('record-values').textContent"
# what the record says, by the names of its rows
RECORD_ROWS = """Object.fromEntries([...document.querySelectorAll('#record-values dt')].map((name) => {
  const items = [...name.nextSibling.querySelectorAll('li')].map((item) => item.textContent);
  return [name.textContent, items.length ? items : name.nextSibling.textContent]; }))"""
CLOSED = "[...document.querySelectorAll('#closed-table tbody tr')].filter(r => r.textContent.includes(%s))"
# refusals after which the page's server asks again: no page gets them
ASKED_AGAIN = {30, 32, 34, 40}
# that of a `replace` whose node was not heard
UNHEARD = 38
CHOICES = 80


def call_of(name, run):
    return f"urn:emergency:uid:callid:{name}{run}:calls.example"


class Page:
    """The page as somebody at its keys sees it."""

    def __init__(self, tab):
        self.tab = tab

    def row(self, where):
        return ROW % json.dumps(where)

    def waits_for(self, expression, seconds=10):
        return self.tab.until(expression, seconds)

    def fill(self, *texts):
        """Types into the fields of the dialog one after the other, and sends it."""
        self.waits_for(DIALOG)
        for number, text in enumerate(texts):
            if number:
                self.tab.key('Tab')
            if text is not None:
                self.tab.value("document.activeElement.select && document.activeElement.select()")
                self.tab.type(text)
        self.tab.key('Enter')

    def clicks_in(self, control, *texts):
        """Clicks at a control, and into each field of its dialog to type there, and at the button that sends it."""
        self.tab.click(control)
        self.waits_for(DIALOG)
        for number, text in enumerate(texts):
            self.tab.click_at(f"document.querySelectorAll('#fields input')[{number}]")
            self.tab.type(text)
        self.tab.click('#submit')

    def clicks_at(self, where, word):
        """Clicks at a button in an incident's row."""
        self.waits_for(self.row(where))
        buttons = f"[...{self.row(where)}.querySelectorAll('button')]"
        self.tab.click_at(f"{buttons}.find((e) => e.textContent === {json.dumps(word)})")

    def confirms(self):
        """Says yes to what the dialog asks."""
        self.waits_for(DIALOG)
        self.tab.key('Enter')

    def done(self, begins):
        """Waits until the latest thing that was sent begins with a text and is done, and gives what is said of it."""
        mine = f"{SENT} && {SENT}.className === 'ok' && {SENT}.textContent.startsWith({json.dumps(begins)})"
        self.waits_for(mine)
        return self.tab.value(f"{SENT}.textContent")

    def refused(self, ends, seconds=10):
        mine = f"{SENT} && {SENT}.className === 'no' && {SENT}.textContent.endsWith({json.dumps(ends)})"
        self.waits_for(mine, seconds)

    def opens(self, kind, where, call=None):
        self.tab.value("document.activeElement.blur()")
        self.tab.key('n')
        self.fill(kind, where, call) if call else self.fill(kind, where)
        self.done(f"open {kind}, {where}")
        self.waits_for(self.row(where))

    def at(self, where):
        """Puts the focus on an incident's row."""
        self.waits_for(self.row(where))
        self.tab.value(f"{self.row(where)}.focus()")

    def at_key(self, where, key):
        """Gives a key at an incident's row."""
        self.at(where)
        self.tab.key(key)

    def act(self, where, word):
        """Chooses an act of an incident's menu by the arrow keys."""
        self.at_key(where, 'm')
        self.waits_for("document.getElementById('menu').open")
        for _ in range(20):
            if self.tab.value("document.activeElement.firstChild.data") == word:
                break
            self.tab.key('ArrowDown')
        self.tab.key('Enter')

    def choose(self, text):
        """Goes by the arrow keys to the choice that begins with a text, of the select that has the focus."""
        for _ in range(CHOICES):
            chosen = self.tab.value("(s => s.options[s.selectedIndex].textContent)(document.activeElement)")
            if chosen.startswith(text):
                return
            self.tab.key('ArrowDown')
        raise AssertionError(f'no choice {text}, at last {chosen}')

    def pick(self, text):
        """Picks the choice of the dialog's first select that begins with a text, and sends it."""
        self.waits_for(DIALOG)
        self.waits_for("document.activeElement.tagName === 'SELECT'")
        self.choose(text)
        self.tab.key('Enter')

    def presses(self, label):
        """Gives Enter at the button with this name, without marks that isolate, which is a stop of the key Tab."""
        named = r"e.getAttribute('aria-label').replace(/[\u2068\u2069]/g, '')"
        button = f"[...document.querySelectorAll('[aria-label]')].find((e) => {named} === {json.dumps(label)})"
        self.waits_for(f"{button} && {button}.tabIndex === 0")
        self.tab.value(f"{button}.focus()")
        self.tab.key('Enter')

    def number_of(self, where):
        return self.tab.value(f"{self.row(where)}.querySelector('td.no').textContent")

    def asks_to_sign_on(self, unit):
        self.tab.value("document.getElementById('sign-on').focus()")
        self.tab.key('Enter')
        self.fill(unit)

    def signs_on(self, unit):
        self.asks_to_sign_on(unit)
        self.done(f"sign {unit} on")
        self.waits_for(f"document.querySelector('#unit-table tr[data-unit={unit}]')")

    def next_status(self, unit, words):
        """Has a unit go on to its next status by a key."""
        select = f"document.querySelector('#unit-table tr[data-unit={unit}] select')"
        self.waits_for(f"{select} && !{select}.disabled")
        self.tab.value(f"{select}.focus()")
        self.tab.key('ArrowDown')
        self.done(f"{unit} {words}")
        self.waits_for(f"{select}.value === {json.dumps(words.replace(' ', '_'))}")

    def record(self):
        return self.tab.value(RECORD_ROWS)


class Day:
    """Three incidents and two units, by names of this run alone, and what is done with them from the page."""

    def __init__(self, page, run):
        self.page, self.run = page, run
        self.here, self.there = f"12 Elm St {run}", f"Rail bridge {run}"
        self.third = f"Ridge Rd {run} <script>alert(1)</script>"
        self.engine, self.medic = f"E{run}", f"M{run}"

    def every_verb(self):
        """Every verb of the desk, given by keys, each seen on the board."""
        self.begins()
        self.commits_units()
        self.joins()
        self.refusals()
        self.shows_whole_records()
        self.parts()
        self.ends()
        self.closed_incidents()

    def begins(self):
        page = self.page
        page.opens('fire', self.here, call_of('c', self.run))
        page.opens('medical', self.there)
        page.opens('brush fire', self.third)
        for unit in (self.engine, self.medic):
            page.signs_on(unit)

    def commits_units(self):
        page = self.page
        page.at_key(self.here, 'a')
        page.pick(self.engine)
        page.done(f"assign {self.engine}")
        page.waits_for(f"{page.row(self.here)}.querySelector('.dispatched')")
        page.next_status(self.engine, 'en route')
        page.next_status(self.engine, 'on scene')
        page.waits_for(f"{page.row(self.here)}.querySelector('.on_scene')")
        page.act(self.there, 'Have a unit stand by')
        page.pick(self.engine)
        page.done(f"{self.engine} stands by")
        page.waits_for(f"{page.row(self.there)}.textContent.includes('stands by')")

    def joins(self):
        page = self.page
        page.at_key(self.here, 'e')
        page.fill('two persons inside')
        page.done('note on')
        page.waits_for(f"{page.row(self.here)}.textContent.includes('two persons inside')")
        page.act(self.here, 'Link with another')
        page.pick(page.number_of(self.there) + ':')
        page.done('link ')
        page.waits_for(f"{page.row(self.here)}.querySelector('td.links a')")

    def refusals(self):
        """What the desk refuses is shown in words. After the last of these the call is added."""
        page = self.page
        page.at_key(self.here, 'c')
        page.confirms()
        page.refused('units are still at the incident')
        page.asks_to_sign_on(self.engine)
        page.refused('that unit is signed on already')
        page.act(self.here, 'Add a call')
        page.fill('no identifier')
        page.refused('bad identifier: call')
        page.act(self.here, 'Add a call')
        page.fill(call_of('c', self.run))
        page.refused('an incident has that call already')
        page.act(self.here, 'Split a call off')
        page.confirms()
        page.refused('it is the incident\'s last call')
        page.act(self.there, 'Split a call off')
        page.refused('it has no call')
        page.act(self.here, 'Add a call')
        page.fill(call_of('d', self.run))
        page.done('add a call')

    def shows_whole_records(self):
        """An incident's record, by its key and by its address in a page that is loaded anew."""
        page = self.page
        numbers = page.number_of(self.here), page.number_of(self.there)
        page.waits_for(f"{page.row(self.here)}.querySelector('td.calls').textContent === '2'")
        page.at_key(self.here, 'r')
        page.waits_for(f"{RECORD}.includes('two persons inside')")
        page.tab.ask('Page.reload')
        page.waits_for(f"document.readyState === 'complete' && {RECORD}.includes('on scene')")
        found = page.record()
        wanted = {'State': 'open', 'Kind': 'fire', 'Where': self.here, 'Note': 'two persons inside',
                  'Units': [f'{self.engine}, on scene'], 'Stand by': 'none', 'Links': [numbers[1]],
                  'Calls': [call_of('c', self.run), call_of('d', self.run)]}
        found_here = {name: found.get(name) for name in wanted}
        if found_here != wanted:
            raise AssertionError(f'record: {found_here}, and not {wanted}')
        page.tab.value("document.querySelector('#record-values dd a').focus()")
        page.tab.key('Enter')
        page.waits_for(f"{RECORD}.includes({json.dumps(self.there)})")
        if page.record()['Stand by'] != [self.engine]:
            raise AssertionError(f'record: {page.record()}')
        page.tab.value("location.hash = '#incident=urn:emergency:uid:incidentid:000000099999:desk.example'")
        page.waits_for("document.getElementById('record-title').textContent.endsWith('no such incident')")
        page.tab.value("location.hash = '#open'")

    def parts(self):
        page = self.page
        rear = f"rear {self.run}"
        page.act(self.there, 'Stand a unit down')
        page.pick(self.engine)
        page.done(f"{self.engine} stands down")
        page.waits_for(f"!{page.row(self.there)}.textContent.includes('stands by')")
        page.act(self.here, 'Take a link away')
        page.pick(page.number_of(self.there))
        page.done('unlink ')
        page.waits_for(f"!{page.row(self.here)}.querySelector('td.links a')")
        page.act(self.here, 'Split a call off')
        page.waits_for(DIALOG)
        page.tab.key('Tab')
        page.fill('medical', rear)
        page.done('split ')
        page.waits_for(page.row(rear))
        page.act(rear, 'Merge into another')
        page.pick(page.number_of(self.here) + ':')
        page.done('merge ')
        page.waits_for(f"!{page.row(rear)}")

    def ends(self):
        page = self.page
        page.presses(f"Release {self.engine}")
        page.done(f"release {self.engine}")
        page.waits_for(f"!{page.row(self.here)}.textContent.includes('{self.engine}')")
        page.presses(f"Sign off {self.medic}")
        page.confirms()
        page.done(f"sign {self.medic} off")
        page.waits_for(f"!document.querySelector('#unit-table tr[data-unit={self.medic}]')")
        page.at_key(self.there, 'c')
        page.confirms()
        page.done('clear ')
        page.waits_for(f"!{page.row(self.there)}")

    def closed_incidents(self):
        """The closed incidents with their filters, and an incident that is opened again from its record."""
        page, tab = self.page, self.page.tab
        tab.value("document.getElementById('to-closed').focus()")
        tab.key('Enter')
        page.waits_for(f"({CLOSED % json.dumps(str(self.run))}).length === 2")
        tab.value("document.getElementById('closed-state').focus()")
        page.choose('merged')
        page.waits_for(f"({CLOSED % json.dumps(str(self.run))}).length === 1 "
                       f"&& ({CLOSED % json.dumps('merged into')}).length")
        tab.key('ArrowUp')
        tab.key('ArrowUp')
        tab.value("document.activeElement.blur()")
        tab.key('/')
        tab.type(f'bridge {self.run}')
        page.waits_for("document.querySelectorAll('#closed-table tbody tr').length === 1")
        page.presses(f'Record of medical, {self.there}')
        page.waits_for(f"location.hash.startsWith('#incident=') && {RECORD}.includes('cleared')")
        tab.value("document.querySelector('#record-acts button').focus()")
        tab.key('Enter')
        page.confirms()
        page.done('reopen ')
        page.waits_for(f"{RECORD}.includes('Stateopen')")
        tab.value("document.getElementById('closed-filter').value = ''; location.hash = '#open'")
        page.waits_for(page.row(self.there))


def by_the_mouse(page, run):
    """An incident is opened, gets a unit and is cleared by clicks. So are rows put in order, and those with a unit left
    out."""
    tab, where, unit = page.tab, f'by the mouse {run}', f'K{run}'
    page.clicks_in('#new', 'drill', where)
    page.done(f'open drill, {where}')
    page.clicks_in('#sign-on', unit)
    page.done(f'sign {unit} on')
    page.waits_for(f"document.querySelector('#unit-table tr[data-unit={unit}]')")
    page.clicks_at(where, 'Assign')
    page.waits_for(DIALOG)
    tab.value(f"document.querySelector('#fields select').value = '{unit}'")
    tab.click('#submit')
    page.done(f'assign {unit}')
    page.waits_for(f"{page.row(where)}.textContent.includes('{unit}')")
    tab.click('#bare')
    page.waits_for(f"!{page.row(where)} && document.querySelector('#incident-table tbody tr')")
    tab.click('#bare')
    page.waits_for(page.row(where))
    rows_in_order(page)
    tab.click(f'#unit-table tr[data-unit={unit}] button')
    page.done(f'release {unit}')
    page.clicks_at(where, 'More')
    page.waits_for("document.getElementById('menu').open")
    tab.click_at("[...document.querySelectorAll('#menu-acts button')].find((e) => e.firstChild.data === 'Clear')")
    page.waits_for(DIALOG)
    tab.click('#submit')
    page.done('clear ')
    page.waits_for(f'!{page.row(where)}')


def rows_in_order(page):
    """A click at the head of the places puts rows in their order, and one more turns it round, which is announced to
    who hears the page. At last they stand by their age again."""
    places = "[...document.querySelectorAll('#incident-table td.where')].map((e) => e.textContent.toLowerCase())"
    sort = "document.querySelector('th[aria-sort] button[data-sort=where]')"
    for reported, step in (('ascending', 1), ('descending', -1)):
        page.tab.click_at(sort)
        page.waits_for(f"{sort}.parentNode.getAttribute('aria-sort') === '{reported}'")
        found = page.tab.value(places)
        if found != sorted(found)[::step]:
            raise AssertionError(f'{reported}: {found}')
    page.tab.click('th button[data-sort=opened]')


def rows_by_arrows(page):
    """Each row of the open incidents gets the focus by the arrow keys."""
    rows = page.tab.value("(() => { const rows = [...document.querySelectorAll('#incident-table tbody tr')]; "
                          "rows.find((row) => row.tabIndex === 0).focus(); return rows.length; })()")
    for key, end in (('ArrowUp', 'first'), ('ArrowDown', 'last')):
        for _ in range(rows):
            page.tab.key(key)
        page.waits_for(f"document.activeElement === document.querySelector('#incident-table tbody').{end}ElementChild")


def marks_turn_nothing_round(page):
    """A place with marks of direction, in its row, in the titles of dialogs, and as a choice of another incident's: it
    stands there without them, and isolated."""
    isolated = '\u2068medical\u2069, \u2068' + CLEANED + '\u2069'
    first = page.tab.value("document.querySelector('#incident-table td.where').textContent")
    for where, act, part, wanted in ((CLEANED, None, 'menu-title', isolated),
                                     (CLEANED, 'Add a call', 'dialog-title', f'Add a call to {isolated}'),
                                     (first, 'Merge into another', 'fields', f': {isolated}')):
        page.at_key(where, 'm') if act is None else page.act(where, act)
        page.waits_for(f"document.getElementById({json.dumps(part)}).textContent.includes({json.dumps(wanted)})")
        found = page.tab.value(WITH_MARKS)
        if found:
            raise AssertionError(f'{part}: texts with marks: {found}')
        page.tab.key('Escape')
        page.waits_for("!document.querySelector('dialog[open]')")


def focus_outlives_boards(page, command):
    """The control that has the focus in a part that is drawn anew after another client's command has it then too."""
    record = '#incident=' + page.tab.value("board.incidents[0].incident")
    named = "((e) => e.dataset.id || e.getAttribute('aria-label') || e.textContent)(%s)"
    for view, address, unit, control in (('open', '#open', 'a', '[aria-label^="Sign off"]'),
                                         ('open', '#open', 'b', '#incident-table tbody tr'),
                                         ('closed', '#closed', 'c', '[aria-label^="Record of"]'),
                                         ('record', record, 'd', '#record-acts button')):
        page.tab.value(f"location.hash = {json.dumps(address)}")
        found = f"document.querySelector({json.dumps(control)})"
        page.waits_for(f"view === {json.dumps(view)} && (view === 'open' || drawnAt > 0) && {found}")
        page.tab.value(f"{found}.focus()")
        name = page.tab.value(named % 'document.activeElement')
        place = command(unit)
        page.waits_for(f"board.place >= {place} && (view === 'open' || drawnAt >= {place})")
        page.waits_for(f"{named % 'document.activeElement'} === {json.dumps(name)}", 3)


def units_are_drawn_behind_a_select(page, command):
    """Where a unit's status had the focus while another client signed one on, that is drawn once it has it no more."""
    page.tab.value("location.hash = '#open'")
    page.tab.value("document.querySelector('#unit-table select:enabled').focus()")
    place = command('behind')
    page.waits_for(f"board.place >= {place}")
    page.tab.value("document.activeElement.blur()")
    page.waits_for("document.querySelector('#unit-table tr[data-unit=behind]')", 5)


def refusals_without_words():
    """An expression of the refusals that the page has no words for, of those that a page gets. It sends no
    `replace`, which 38 refuses."""
    numbers = {int(it) for it in re.findall(r'^\| (\d+) \| \w+ \| ', text_of('docs/DOCUMENTS.md'), re.M)}
    reported = sorted(it for it in numbers if it < 40 and it not in (*ASKED_AGAIN, UNHEARD))
    return f'{json.dumps(reported)}.filter((it) => !REFUSED[it])'
