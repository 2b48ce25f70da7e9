"""Lines of documents for a replay, and what a program takes for them: what the scripts share that measure replays."""
import json
import resource
import subprocess

from desk_nodes import DOMAIN

# the identifier that the desk gives to what an entry at a place opens
OWN = f'urn:emergency:uid:incidentid:{{:012}}:{DOMAIN}'


def line(session, number, verb, **members):
    return json.dumps({'session': session, 'number': number, 'at': '2026-03-01T12:00:00Z', 'do': verb, **members})


def open_with_call(session, number, call, **members):
    return line(session, number, 'open', kind='fire', where='12 Elm St', call=call, **members)


def opens(count, sessions):
    """Opens with an identifier and a call of their own, by so many sessions in turn."""
    name = 'urn:emergency:uid:{}:n{:08}:county.example'
    return [open_with_call(k % sessions + 1, k // sessions + 1, name.format('callid', k + 1),
                           incident=name.format('incidentid', k + 1)) for k in range(count)]


def replayed(words, name):
    """What a program writes for the lines of a file, and the processor seconds that it takes."""
    before = resource.getrusage(resource.RUSAGE_CHILDREN)
    with open(name, 'rb') as source:
        replies = subprocess.run(words, stdin=source, stdout=subprocess.PIPE, check=True).stdout
    after = resource.getrusage(resource.RUSAGE_CHILDREN)
    return replies, after.ru_utime + after.ru_stime - before.ru_utime - before.ru_stime
