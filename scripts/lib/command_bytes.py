"""The bytes of commands and of packets, written from docs/FORMATS.md. It shares no code with the desk."""

STATUSES = ['available', 'dispatched', 'en_route', 'on_scene', 'transporting', 'at_facility', 'out_of_service']
# each verb's number is its place, from 1 on; a member after a question mark may be absent
FIELDS = {
    'open': ['kind', 'where', '?incident', '?call'], 'add_call': ['incident', 'call'], 'link': ['incident', 'other'],
    'unlink': ['incident', 'other'], 'merge': ['incident', 'into'], 'split': ['incident', 'call', 'kind', 'where'],
    'clear': ['incident'], 'reopen': ['incident'], 'note': ['incident', 'text'], 'sign_on': ['unit'],
    'sign_off': ['unit'], 'assign': ['unit', 'incident'], 'status': ['unit', 'status'], 'release': ['unit'],
    'stand_by': ['unit', 'incident'], 'stand_down': ['unit'], 'replace': ['node', 'token'],
}
# how many bytes a member has that is a number
NUMBERS = {'node': 1, 'token': 8}


def field_bytes(document, name):
    if name == 'status':
        return bytes([STATUSES.index(document[name])])
    if name in NUMBERS:
        return document[name].to_bytes(NUMBERS[name], 'big')
    if name.startswith('?'):
        return b'\x01' + field_bytes(document, name[1:]) if name[1:] in document else b'\x00'
    text = document[name].encode()
    return bytes([len(text)]) + text


def body_of(document, seconds):
    """The body of a document's command, whose time is so many seconds since 1970."""
    number = list(FIELDS).index(document['do']) + 1
    fields = [field_bytes(document, name) for name in FIELDS[document['do']]]
    return bytes([number]) + seconds.to_bytes(8, 'big', signed=True) + b''.join(fields)


def entry_of(document, seconds):
    """The entry of a document's command."""
    body = body_of(document, seconds)
    return document['session'].to_bytes(8, 'big') + document['number'].to_bytes(8, 'big') \
        + len(body).to_bytes(2, 'big') + body


# where entries begin in the fields of the kinds of packets that carry some, and where places, commits and bases do
ENTRIES_AT = {1: 16, 5: 20, 6: 12, 8: 20}
PLACES_AT = {1: [0, 8], 2: [0], 3: [0], 5: [8], 6: [0], 7: [0], 8: [0, 8]}
COUNT_AT = {5: 16, 6: 8, 8: 16}
FIRST_LOG_ENTRIES = 16384


def greatest_place(kind, fields):
    """The greatest place, commit, base or count of a packet, where a base and its count are taken together."""
    number = lambda at, size: int.from_bytes(fields[at:at + size], 'big')
    places = [number(at, 8) for at in PLACES_AT.get(kind, [])]
    if kind in COUNT_AT:
        places.append(number(COUNT_AT[kind], 4) + (places[0] if kind == 8 else 0))
    return max(places, default=0)


def version_of(kind, fields):
    """The version of a packet: 2 where a place is past the logs of version 1, or an entry's verb is a new one."""
    if greatest_place(kind, fields) > FIRST_LOG_ENTRIES:
        return 2
    at = ENTRIES_AT.get(kind, len(fields))
    while at < len(fields):
        if fields[at + 18] > 14:
            return 2
        at += 18 + int.from_bytes(fields[at + 16:at + 18], 'big')
    return 1


def frame_of(kind, node, view, fields):
    packet = bytes([version_of(kind, fields), kind, node]) + view.to_bytes(8, 'big') + fields
    return len(packet).to_bytes(4, 'big') + packet


def prepare(node, view, place, entry):
    """The frame of a node's Prepare, by which all places before this one are committed."""
    return frame_of(1, node, view, place.to_bytes(8, 'big') + (place - 1).to_bytes(8, 'big') + entry)


def start_view(node, view, commit, entries):
    """The frame of a node's StartView with these entries as its log."""
    return frame_of(6, node, view, commit.to_bytes(8, 'big') + len(entries).to_bytes(4, 'big') + b''.join(entries))
