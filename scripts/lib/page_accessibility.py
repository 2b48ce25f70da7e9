"""An accessibility audit of a page: checks over the tree that Chromium makes of it for who hears it or uses keys alone,
each with a fault that it finds in a page that has none else."""
import collections
import json

# what a user gives a command by, as the accessibility tree names it
CONTROLS = {'button', 'link', 'textbox', 'searchbox', 'combobox', 'checkbox', 'radio', 'slider', 'spinbutton', 'switch',
            'menuitem', 'tab', 'listbox'}
LANDMARKS = {'banner', 'main', 'navigation', 'complementary', 'contentinfo', 'region', 'search', 'form'}
# what stands outside of landmarks: what is announced at once, dialogs, and links to a part of the page
OUTSIDE = {'alert', 'status', 'dialog', 'alertdialog', 'link'}
LEAST_CONTRAST, LEAST_FOCUS_CONTRAST, MOST_STOPS = 4.5, 3, 400

LIBRARY = """
const part = (v) => { v /= 255; return v <= .03928 ? v / 12.92 : ((v + .055) / 1.055) ** 2.4; };
const light = (c) => .2126 * part(c[0]) + .7152 * part(c[1]) + .0722 * part(c[2]);
const parse = (s) => (s.match(/[\\d.]+/g) || [0, 0, 0, 0]).map(Number);
const back = (e) => { for (; e; e = e.parentElement) { const c = parse(getComputedStyle(e).backgroundColor);
  if (c.length < 4 || c[3] === 1) return c; } return [255, 255, 255]; };
const contrast = (a, b) => { const x = light(a), y = light(b);
  return (Math.max(x, y) + .05) / (Math.min(x, y) + .05); };
const seen = (e) => e.getClientRects().length > 0 && getComputedStyle(e).visibility === 'visible';
const top_of = () => document.querySelector('dialog[open]') || document.body;
const all = (selector) => [...top_of().querySelectorAll(selector)].filter(seen);
const said = (e) => `${e.tagName.toLowerCase()} ${e.id || e.getAttribute('aria-label') || e.name
  || e.textContent.trim().slice(0, 30)}`;
"""


class Audited:
    """A page in a tab, and its accessibility tree as it is now."""

    def __init__(self, tab):
        self.tab = tab
        self.by_id = {node['nodeId']: node for node in tab.ask('Accessibility.getFullAXTree')['nodes']}
        [self.root] = [node for node in self.by_id.values() if 'parentId' not in node]
        self.nodes = [node for node in self.below(self.root) if not node['ignored']]
        self.is_modal = any(role_of(node) == 'dialog' for node in self.nodes)

    def below(self, node):
        """A node and all below it, in the order of the page."""
        yield node
        for child in node.get('childIds', []):
            if child in self.by_id:
                yield from self.below(self.by_id[child])

    def of_role(self, *roles):
        return [node for node in self.nodes if role_of(node) in roles]

    def above(self, node):
        while node.get('parentId') in self.by_id:
            node = self.by_id[node['parentId']]
            yield node

    def is_live(self, node):
        return any(property_of(it, 'live') in ('polite', 'assertive') for it in (node, *self.above(node)))

    def asked(self, expression):
        """The value of an expression in the page, which may use the library."""
        return self.tab.value(f'(() => {{ {LIBRARY} return {expression}; }})()')


def role_of(node):
    return node.get('role', {}).get('value', '')


def name_of(node):
    return node.get('name', {}).get('value', '')


def property_of(node, name):
    return next((it['value'].get('value') for it in node.get('properties', []) if it['name'] == name), None)


def controls_without_name(page):
    return [role_of(node) for node in page.nodes if role_of(node) in CONTROLS and not name_of(node).strip()]


def stops_without_role(page):
    return [name_of(node) or 'no name' for node in page.nodes
            if property_of(node, 'focusable') and role_of(node) in ('generic', 'none', 'presentation', 'paragraph')]


def fields_without_label(page):
    return page.asked("all('input, select, textarea').filter((e) => !(e.labels && e.labels.length) "
                      "&& !e.hasAttribute('aria-label') && !e.hasAttribute('aria-labelledby')).map(said)")


def names_without_seen_words(page):
    return page.asked("all('button[aria-label], a[aria-label]').filter((e) => !e.getAttribute('aria-label')"
                      ".toLowerCase().includes(e.innerText.trim().toLowerCase())).map(said)")


def headings_out_of_order(page):
    """Headings that leave a level out, and a first one that is not the page's, or the dialog's."""
    levels = [property_of(node, 'level') for node in page.of_role('heading')]
    first = 2 if page.is_modal else 1
    wrong = [] if levels[:1] == [first] and levels.count(1) == (not page.is_modal) else [f'levels {levels}']
    return wrong + [f'{below} after {above}' for above, below in zip(levels, levels[1:]) if below > above + 1]


def wrong_landmarks(page):
    if page.is_modal:
        return [] if all(map(name_of, page.of_role('dialog'))) else ['a dialog without a name']
    counts = collections.Counter(map(role_of, page.nodes))
    wrong = [f'{counts[role]} of {role}' for role in ('banner', 'main', 'navigation') if counts[role] != 1]
    names = [name_of(node) for node in page.of_role('region', 'navigation')]
    return wrong + [f'{name or "no name"}: {count}' for name, count in collections.Counter(names).items()
                    if not name or count > 1]


def texts_outside_landmarks(page):
    inside = LANDMARKS | OUTSIDE
    return [name_of(node) for node in page.of_role('StaticText')
            if name_of(node).strip() and not inside & set(map(role_of, page.above(node)))]


def texts_said_to_nobody(page):
    """What says an outcome or how the connection is, and is in no live region: by its first words, since it says for
    how long too."""
    if page.is_modal:
        return []
    texts = page.asked("[...document.querySelectorAll('#state, #alert, #sent li')].filter(seen)"
                       ".map((e) => e.textContent.slice(0, 12))")
    reported = [name_of(node) for node in page.of_role('StaticText') if page.is_live(node)]
    return [text for text in texts if not any(it.startswith(text) for it in reported)]


def missing_words_of_the_page(page):
    language = page.asked('document.documentElement.lang')
    return [what for what, text in (('language', language), ('title', name_of(page.root))) if not text]


def tables_without_headers(page):
    wrong = page.asked("all('th:not([scope])').map(said)")
    for table in page.of_role('table', 'grid'):
        heads = [node for node in page.below(table) if role_of(node) == 'columnheader' and not node['ignored']]
        wrong += ['a header without a name' for node in heads if not name_of(node).strip()]
        for row in (node for node in page.below(table) if role_of(node) == 'row'):
            roles = [role_of(node) for node in page.below(row)]
            if roles.count('cell') + roles.count('gridcell') not in (0, len(heads)):
                wrong.append(f'{len(heads)} headers, and a row {name_of(row)!r} of other cells')
    return wrong


def positive_tab_indexes(page):
    return page.asked("all('[tabindex]').filter((e) => e.tabIndex > 0).map(said)")


def broken_references(page):
    return page.asked("[...document.querySelectorAll('[aria-labelledby], [aria-describedby], [for]')].flatMap((e) => "
                      "['aria-labelledby', 'aria-describedby', 'for'].flatMap((n) => (e.getAttribute(n) || '')"
                      ".split(' ').filter((id) => id && !document.getElementById(id)))).concat("
                      "[...document.querySelectorAll('[id]')].filter((e) => "
                      "document.querySelectorAll('#' + CSS.escape(e.id)).length > 1).map(said))")


def weak_contrasts(page):
    return page.asked(
        "all('*').filter((e) => [...e.childNodes].some((n) => n.nodeType === 3 && n.data.trim()) && !e.disabled)"
        ".map((e) => [said(e), contrast(parse(getComputedStyle(e).color), back(e))])"
        f".filter((row) => row[1] < {LEAST_CONTRAST}).map((row) => `${{row[0]}}: ${{row[1].toFixed(2)}}`)")


STOP = """(() => { const e = document.activeElement; if (e === document.body) return null;
const style = getComputedStyle(e), at = stops.indexOf(e); if (at < 0) stops.push(e);
const is_ours = style.outlineStyle !== 'none' && parseFloat(style.outlineWidth) >= 2
  && contrast(parse(style.outlineColor), back(e.parentElement)) >= LEAST;
return { at, said: said(e), is_marked: style.outlineStyle === 'auto' || is_ours }; })()"""


def walk(page):
    """Goes over the page by the key Tab until it comes to where it began. It gives the stops, in their order, and
    where Tab did not go on."""
    page.tab.value('window.stops = []; 1')
    found, traps, last = [], [], None
    for _ in range(MOST_STOPS):
        page.tab.key('Tab')
        stop = page.asked(STOP.replace('LEAST', str(LEAST_FOCUS_CONTRAST)))
        if stop is None:
            continue
        if stop['at'] < 0:
            found.append(stop)
        elif stop['at'] == 0:
            return found, traps
        elif stop['at'] == last:
            return found, [f'Tab does not leave {stop["said"]}']
        last = len(found) - 1 if stop['at'] < 0 else stop['at']
    return found, ['Tab does not come back']


def stops_of_keys(page):
    """What Tab does not leave or does not reach, and where it is not seen that the focus is there. A row that takes the
    focus gives what its buttons give by keys of its own, so these are no stops."""
    found, wrong = walk(page)
    wrong += [f'the focus at {stop["said"]} is not seen' for stop in found if not stop['is_marked']]
    missed = page.asked("all('a[href], button, input, select, textarea, summary').filter((e) => !e.disabled "
                        "&& !stops.includes(e) && !e.closest('tr[tabindex]')).map(said)")
    return wrong + [f'Tab does not reach {it}' for it in missed]


# a page without a fault
SOUND = """<!doctype html><html lang="en"><head><title>A board</title><style>
body { color: #222; background: #fff; } :focus-visible { outline: 3px solid #b45309; }</style></head><body>
<header><h1>Board</h1><p id="state" role="status">Live</p><nav aria-label="Views"><a href="#one">Open</a></nav></header>
<main><section aria-labelledby="one"><h2 id="one">Incidents</h2><h3>Today</h3>
<label>Filter <input type="search"></label>
<select aria-label="State"><option>open</option></select>
<table><thead><tr><th scope="col">No.</th><th scope="col">Kind</th></tr></thead>
<tbody><tr><td>1</td><td>fire</td></tr></tbody></table>
<button type="button" aria-label="Clear the fire">Clear</button>
<ol id="sent" aria-live="polite"><li>the incident is cleared</li></ol></section></main></body></html>"""
BUTTON = '<button type="button" aria-label="Clear the fire">Clear</button>'

# each check by what it says of a page, with a fault that is planted: a text of the sound page, and what stands there
CHECKS = [
    ('each control has a name', controls_without_name, BUTTON, '<button type="button"></button>'),
    ('what takes the focus has a role', stops_without_role, BUTTON, '<div tabindex="0">Clear</div>'),
    ('each field has a label', fields_without_label, '<label>Filter <input type="search"></label>',
     '<input type="search" placeholder="Filter">'),
    ('a name has the words that are seen', names_without_seen_words, '"Clear the fire"', '"The fire is over"'),
    ('headings are in order', headings_out_of_order, '<h2 id="one">Incidents</h2>', '<p id="one">Incidents</p>'),
    ('landmarks are there, and named', wrong_landmarks, '<nav aria-label="Views">', '<nav>'),
    ('texts are in landmarks', texts_outside_landmarks, '<main>', '<p>Two persons inside</p><main>'),
    ('what is said is in a live region', texts_said_to_nobody, '<ol id="sent" aria-live="polite">', '<ol id="sent">'),
    ('the page has a language and a title', missing_words_of_the_page, '<html lang="en">', '<html>'),
    ('tables have headers', tables_without_headers, '<th scope="col">Kind</th>', ''),
    ('no tabindex is positive', positive_tab_indexes, BUTTON, '<button tabindex="2">Clear</button>'),
    ('references are whole', broken_references, '<section aria-labelledby="one">', '<section aria-labelledby="two">'),
    ('texts have contrast', weak_contrasts, 'color: #222', 'color: #888'),
    ('all is reached by keys', stops_of_keys, BUTTON, '<button tabindex="-1">Clear</button>'),
    ('no control keeps the focus', stops_of_keys, '<input type="search">',
     '<input type="search" onkeydown="event.preventDefault()">'),
    ('the focus is seen', stops_of_keys, 'outline: 3px solid #b45309', 'outline: 1px solid #eee'),
]

# what is seen otherwise in other colours
OF_COLOURS = [row for row in CHECKS if row[1] in (weak_contrasts, stops_of_keys)]


def faults_of(tab, checks=CHECKS):
    """What an audit finds in the page of a tab, by check."""
    page = Audited(tab)
    named = {check: name for name, check, _, _ in reversed(checks)}
    found = {name: check(page) for check, name in named.items()}
    return [f'{name}: {json.dumps(wrong)}' for name, wrong in found.items() if wrong]


def missed_faults(tab):
    """The checks that find a fault in the sound page, or none in the page that has theirs planted."""
    frame = tab.ask('Page.getFrameTree')['frameTree']['frame']['id']
    tab.ask('Page.setDocumentContent', frameId=frame, html=SOUND)
    wrong = [f'the sound page: {it}' for it in faults_of(tab)]
    for name, check, old, new in CHECKS:
        tab.ask('Page.setDocumentContent', frameId=frame, html=SOUND.replace(old, new))
        if not check(Audited(tab)):
            wrong.append(f'not found: {name}')
    return wrong
