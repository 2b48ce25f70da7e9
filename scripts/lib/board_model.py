"""A second model of the board, written from docs/BOARD.md and docs/DOCUMENTS.md. It shares no code with the desk, and
knows documents that the desk can read: identifiers in their canonical text, members in their ranges."""
import json

WORKING = ['dispatched', 'en_route', 'on_scene', 'transporting', 'at_facility']


class Refused(Exception):
    """A check that failed: the number of the refusal, and the incident that it names, if any."""

    def __init__(self, number, incident=None):
        super().__init__(number)
        self.number, self.incident = number, incident


def line_of(members):
    """A reply line, without its newline."""
    return json.dumps(members, sort_keys=True, separators=(',', ':'), ensure_ascii=False)


# how many incidents a list has at most
LISTED = 1024


def grouped(pairs):
    """The first of each pair, by the second."""
    groups = {}
    for one, other in pairs:
        groups.setdefault(other, []).append(one)
    return groups


class Incident:
    def __init__(self, identifier, document, opened, place):
        self.id, self.kind, self.where, self.opened = identifier, document['kind'], document['where'], opened
        self.note, self.state, self.into = '', 'open', None
        # the place of the entry that opened it
        self.place = place


class Board:
    """What the entries of a log leave, done one after the other."""

    def __init__(self, domain):
        self.domain, self.place = domain, 0
        # an incident's identifier to the incident; a unit's name to its status; pairs in the order in which they came
        self.incidents, self.units = {}, {}
        self.calls, self.links, self.commitments, self.stand_bys = [], [], [], []

    def known(self, identifier):
        incident = self.incidents.get(identifier)
        if incident is None:
            raise Refused(10)
        if incident.state == 'merged':
            raise Refused(12, incident.into)
        return incident

    def open_incident(self, identifier):
        incident = self.known(identifier)
        if incident.state != 'open':
            raise Refused(11)
        return incident

    def calls_of(self, identifier):
        return [call for call, at in self.calls if at == identifier]

    def free_call(self, call):
        if any(call == it for it, _ in self.calls):
            raise Refused(16)

    def status_of(self, unit):
        if unit not in self.units:
            raise Refused(20)
        return self.units[unit]

    def incident_of(self, unit):
        return next((at for it, at in self.commitments if it == unit), None)

    def stands_by_for(self, unit):
        return next((at for it, at in self.stand_bys if it == unit), None)

    def linked(self, one, other):
        return any({one, other} == {*pair} for pair in self.links)

    def own_identifier(self):
        return f'urn:emergency:uid:incidentid:{self.place + 1:012}:{self.domain}'

    def add(self, identifier, document, opened):
        self.incidents[identifier] = Incident(identifier, document, opened, self.place + 1)
        return {'incident': identifier}

    def do_open(self, document, opened):
        identifier = document.get('incident')
        if identifier is not None:
            if identifier.rsplit(':', 1)[1] == self.domain:
                raise Refused(14)
            if identifier in self.incidents:
                raise Refused(13)
        if 'call' in document:
            self.free_call(document['call'])
        made = self.add(identifier or self.own_identifier(), document, opened)
        if 'call' in document:
            self.calls.append((document['call'], made['incident']))
        return 'opened', made

    def do_add_call(self, document, _):
        incident = self.open_incident(document['incident'])
        self.free_call(document['call'])
        if len(self.calls_of(incident.id)) >= 16:
            raise Refused(27)
        self.calls.append((document['call'], incident.id))
        return 'call_added', {}

    def do_link(self, document, _):
        one, other = self.open_incident(document['incident']), self.open_incident(document['other'])
        if one is other:
            raise Refused(15)
        if self.linked(one.id, other.id):
            raise Refused(18)
        self.links.append((one.id, other.id))
        return 'linked', {}

    def do_unlink(self, document, _):
        one, other = self.known(document['incident']), self.known(document['other'])
        if one is other:
            raise Refused(15)
        if not self.linked(one.id, other.id):
            raise Refused(19)
        self.links = [pair for pair in self.links if {*pair} != {one.id, other.id}]
        return 'unlinked', {}

    def do_merge(self, document, _):
        one, into = self.open_incident(document['incident']), self.open_incident(document['into'])
        if one is into:
            raise Refused(15)
        if len(self.calls_of(one.id)) + len(self.calls_of(into.id)) > 16:
            raise Refused(27)
        moved = lambda it: into.id if it == one.id else it
        self.calls = [(call, moved(at)) for call, at in self.calls]
        self.commitments = [(unit, moved(at)) for unit, at in self.commitments]
        self.stand_bys = [(unit, moved(at)) for unit, at in self.stand_bys if moved(at) != self.incident_of(unit)]
        links = []
        for pair in [(moved(a), moved(b)) for a, b in self.links]:
            if pair[0] != pair[1] and not any({*pair} == {*it} for it in links):
                links.append(pair)
        self.links = links
        one.state, one.into = 'merged', into.id
        return 'merged', {}

    def do_split(self, document, opened):
        incident = self.open_incident(document['incident'])
        calls = self.calls_of(incident.id)
        if document['call'] not in calls:
            raise Refused(17)
        if len(calls) == 1:
            raise Refused(29)
        made = self.add(self.own_identifier(), document, opened)
        self.calls = [(call, made['incident'] if call == document['call'] else at) for call, at in self.calls]
        return 'split', made

    def do_clear(self, document, _):
        incident = self.open_incident(document['incident'])
        if any(at == incident.id for _, at in self.commitments + self.stand_bys):
            raise Refused(26)
        incident.state = 'cleared'
        return 'cleared', {}

    def do_reopen(self, document, _):
        incident = self.known(document['incident'])
        if incident.state == 'open':
            raise Refused(28)
        incident.state = 'open'
        return 'reopened', {}

    def do_note(self, document, _):
        self.known(document['incident']).note = document['text']
        return 'noted', {}

    def do_sign_on(self, document, _):
        if document['unit'] in self.units:
            raise Refused(21)
        self.units[document['unit']] = 'available'
        return 'signed_on', {}

    def do_sign_off(self, document, _):
        self.status_of(document['unit'])
        at = self.incident_of(document['unit'])
        if at is not None:
            raise Refused(23, at)
        del self.units[document['unit']]
        return 'signed_off', {}

    def do_assign(self, document, _):
        unit = document['unit']
        status = self.status_of(unit)
        incident = self.open_incident(document['incident'])
        at = self.incident_of(unit)
        if at is not None:
            raise Refused(23, at)
        if status == 'out_of_service':
            raise Refused(22)
        self.units[unit] = 'dispatched'
        self.commitments.append((unit, incident.id))
        return 'assigned', {}

    def do_status(self, document, _):
        unit, wanted = document['unit'], document['status']
        status = self.status_of(unit)
        if self.incident_of(unit) is not None:
            if wanted not in WORKING or WORKING.index(wanted) <= WORKING.index(status):
                raise Refused(25)
        elif wanted in WORKING:
            raise Refused(24)
        elif wanted == status:
            raise Refused(25)
        self.units[unit] = wanted
        return 'status_set', {}

    def do_release(self, document, _):
        unit = document['unit']
        self.status_of(unit)
        if self.incident_of(unit) is None:
            raise Refused(24)
        next_one = self.stands_by_for(unit)
        self.units[unit] = 'available' if next_one is None else 'dispatched'
        self.commitments = [pair for pair in self.commitments if pair[0] != unit]
        if next_one is not None:
            self.commitments.append((unit, next_one))
        self.stand_bys = [pair for pair in self.stand_bys if pair[0] != unit]
        return 'released', {}

    def do_stand_by(self, document, _):
        unit = document['unit']
        self.status_of(unit)
        incident = self.open_incident(document['incident'])
        if self.incident_of(unit) is None:
            raise Refused(24)
        if self.incident_of(unit) == incident.id:
            raise Refused(15)
        if self.stands_by_for(unit) is not None:
            raise Refused(36, self.stands_by_for(unit))
        self.stand_bys.append((unit, incident.id))
        return 'standing_by', {}

    def do_stand_down(self, document, _):
        unit = document['unit']
        self.status_of(unit)
        if self.stands_by_for(unit) is None:
            raise Refused(37)
        self.stand_bys = [pair for pair in self.stand_bys if pair[0] != unit]
        return 'stood_down', {}

    def do_replace(self, document, _):
        return 'replaced', {}

    def apply(self, document, opened):
        """Does an entry, and gives its reply line. `opened` is its time in seconds."""
        reply = {'session': document['session'], 'number': document['number'], 'place': self.place + 1}
        try:
            word, more = getattr(self, f"do_{document['do']}")(document, opened)
            reply.update(more, ok=word)
        except Refused as refused:
            reply['refusal'] = refused.number
            if refused.incident is not None:
                reply['incident'] = refused.incident
        self.place += 1
        return line_of(reply)

    def by_incident(self):
        """The calls, the links, the units and those that stand by of each incident."""
        both_ways = [pair for a, b in self.links for pair in ((b, a), (a, b))]
        return [grouped(pairs) for pairs in (self.calls, both_ways, self.commitments, self.stand_bys)]

    def members_of(self, incident, groups):
        """What a show has of an incident itself."""
        calls, links, units, stand_by = [group.get(incident.id, []) for group in groups]
        members = {'incident': incident.id, 'kind': incident.kind, 'where': incident.where, 'note': incident.note,
                   'opened': incident.opened, 'state': incident.state, 'calls': calls, 'links': links, 'units': units}
        if incident.into is not None:
            members['into'] = incident.into
        if stand_by:
            members['stand_by'] = stand_by
        return members

    def show_incident(self, reply, identifier):
        incident = self.incidents.get(identifier)
        if incident is None:
            return reply.update(refusal=10)
        reply.update(self.members_of(incident, self.by_incident()), ok='incident')

    def members_of_unit(self, unit):
        """What a show has of a unit itself."""
        members = {'unit': unit, 'status': self.units[unit]}
        if self.incident_of(unit) is not None:
            members['incident'] = self.incident_of(unit)
        if self.stands_by_for(unit) is not None:
            members['stand_by'] = self.stands_by_for(unit)
        return members

    def show_unit(self, reply, unit):
        if unit not in self.units:
            return reply.update(refusal=20)
        reply.update(self.members_of_unit(unit), ok='unit')

    def list_parts(self, reply, state, first):
        """The incidents of a state, or of any, from an opening place on, where there is one; else the units too."""
        found = [it for it in self.incidents.values() if state in (None, it.state) and it.place >= (first or 0)]
        groups = self.by_incident()
        reply.update(ok='list', incidents=[self.members_of(it, groups) for it in found[:LISTED]])
        if len(found) > LISTED:
            reply['next'] = found[LISTED].place
        if first is None:
            reply['units'] = [self.members_of_unit(unit) for unit in self.units]

    def show(self, document):
        """The reply line to a show or a list."""
        reply = {'session': document['session'], 'place': self.place}
        if document['do'] == 'list':
            self.list_parts(reply, document.get('state'), document.get('from'))
        elif 'incident' in document:
            self.show_incident(reply, document['incident'])
        elif 'unit' in document:
            self.show_unit(reply, document['unit'])
        else:
            reply.update(ok='board', incidents=len(self.incidents), units=len(self.units))
        return line_of(reply)
