"""A group with its page in a real browser, and what is done with it: what the scripts share that try its faults."""
import contextlib
import json
import os
import signal

from desk_browser import Tab
from desk_nodes import ask_once, same
from page_clients import PROBE, PagedGroup
from page_trials import Page

# what is still to be sent, by its words
WAITS = "[...document.querySelectorAll('#sent li.wait')].some((it) => it.textContent.includes(%s))"
ALERT = "(({ hidden, textContent }) => !hidden && textContent)(document.getElementById('alert'))"


class ShownGroup(PagedGroup):
    """A group with its page, and a tab of a browser that shows it."""

    def __init__(self, room, browser, words=()):
        super().__init__(room, words=words)
        self.browser = browser
        self.tab = self.open()

    def tries(self, test):
        """Runs a trial, after which the console of the page that stays has shown no error."""
        test(self)
        if self.server:
            same(self.tab.faults(), [], 'console')

    def open(self, before=''):
        """A tab that shows the page, in which a script is run before those of the page."""
        tab = Tab(self.browser)
        tab.ask('Page.addScriptToEvaluateOnNewDocument', source=before)
        tab.ask('Page.navigate', url=f'http://127.0.0.1:{self.listen}/#open')
        tab.until("document.getElementById('state').textContent === 'Live'", 20)
        return tab


def enter(tab, where):
    """Opens an incident by keys, and does not wait for its reply."""
    tab.value("document.activeElement.blur()")
    tab.key('n')
    Page(tab).fill('drill', where)


def times_on_board(tab, where, seconds=20):
    """How often an incident of this place stands on the board, once it does."""
    rows = f"[...document.querySelectorAll('td.where')].filter(x => x.textContent === {json.dumps(where)})"
    return tab.until(f'{rows}.length', seconds)[0]


@contextlib.contextmanager
def stopped(programs):
    """Has programs stand still while something is done."""
    for program in programs:
        program.run.send_signal(signal.SIGSTOP)
        # until all threads of it have stopped
        os.waitid(os.P_PID, program.run.pid, os.WSTOPPED | os.WEXITED | os.WNOWAIT)
    try:
        yield
    finally:
        for program in programs:
            program.run.send_signal(signal.SIGCONT)


def enter_unanswered(group, primary, where):
    """Opens an incident by keys, which its primary has and can not answer, since the backups stand still."""
    enter(group.tab, where)
    group.probes += 1
    # after it another's command waits in vain
    reply = ask_once(group.first, primary, PROBE % group.probes, 20)
    same(json.loads(reply)['refusal'], 32, 'a command of another')
    same(group.tab.value(WAITS % json.dumps(where)), True, f'{where}: a command waits')


def each_was_done_once(group, *entered):
    """What was entered stands once each in the list of the node that leads."""
    reported = [it['where'] for it in group.reply_to('{"do":"list","session":96}')['incidents']]
    same([reported.count(it) for it in entered], [1] * len(entered), 'how often each was done')


def is_live(tab, seconds=20):
    tab.until("document.getElementById('alert').hidden && document.getElementById('state').textContent === 'Live'",
              seconds)
