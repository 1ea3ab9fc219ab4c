"""The letters of all transcripts, judged together: a part of tests/legal.py. A NOTE doesn't say who sent it, so for each box
every way is followed in which its letters may be those of the senders, each sender's in order."""
BOX = 1024
WAYS = 4096


class Letter:
    """A letter that a SEND may have put into a box; `is_sure` where it can't have been dropped."""

    def __init__(self, text, is_sure):
        self.text, self.is_sure = text, is_sure


class Box:
    """One session's: what each sender may have put into it, in order, and what came out of it."""

    def __init__(self, session, files):
        self.session, self.files = session, files
        self.queues, self.senders, self.taken = {}, {}, []
        self.most, self.own, self.came = 0, 0, 0

    def put(self, sender, text, is_sure):
        queue = self.queues.setdefault(sender, [])
        queue.append(Letter(text, is_sure))
        self.senders.setdefault(text, set()).add(sender)

    def judge(self, require):
        """Whether what came out is a mix of the senders' letters; not judged where the ways are too many."""
        order = sorted(self.queues)
        ways = {(0,) * len(order)}
        for what, said in self.taken:
            if what == "empty":
                ways = {way for way in ways if self.is_empty(order, way, said)}
                require(ways, f"file {self.session}: a FETCH found the box empty, where the session's own letters stood")
                continue
            ways = {after for way in ways for after in self.taking(order, way, said)}
            text = "NOTE {} {} {}".format(*said)
            require(ways, f"file {self.session}: {text[:200]} was never sent, or stands twice, or before an older one of its sender")
            if len(ways) > WAYS:
                return False
        return True

    def taking(self, order, way, text):
        """The ways to take such a letter: of each sender one before which none must have come first. Equal letters may stand
        there more than once, and of those that may have been dropped each is tried."""
        for sender in self.senders.get(text, ()):
            place = order.index(sender)
            queue = self.queues[sender]
            for at in range(way[place], len(queue)):
                if queue[at].text == text:
                    yield way[:place] + (at + 1,) + way[place + 1 :]
                if queue[at].is_sure:
                    break

    def is_empty(self, order, way, count):
        if self.session not in self.queues:
            return True
        at = way[order.index(self.session)]
        return not any(letter.is_sure for letter in self.queues[self.session][at:count])


class Mail:
    def __init__(self, files):
        self.boxes = {session: Box(session, files) for session in range(1, files + 1)}
        self.sends, self.full, self.overfull = {}, [], []
        self.notes = {}

    def sent(self, sender, n, text, hits, put, dropped):
        """The reply `SENT n put dropped` to this event, which hit these names of these sessions."""
        for_nobody = sum(session == 0 for session, _ in hits)
        self.sends[n, text] = self.sends.get((n, text), 0) + put
        if dropped > for_nobody:
            self.full.append((sender, n, text, {session for session, _ in hits if session}))
        sure = put + for_nobody == len(hits)
        mine = 0
        for session, name in hits:
            if session == 0:
                continue
            box = self.boxes[session]
            box.most += 1
            if put:
                box.put(sender, (n, name, text), sure)
            mine += session == sender
        self.stored(sender, max(0, mine - (dropped - for_nobody)))

    def stored(self, sender, count):
        """So many letters of the sender's own, at least, went into its own box."""
        box = self.boxes[sender]
        box.own += count
        if box.own - box.came > BOX:
            self.overfull.append(sender)

    def noted(self, session, letter):
        self.boxes[session].taken.append(("note", letter))
        self.boxes[session].came += 1
        n, _, text = letter
        self.notes[n, text] = self.notes.get((n, text), 0) + 1

    def emptied(self, session):
        box = self.boxes[session]
        box.taken.append(("empty", len(box.queues.get(session, []))))

    def judge(self, require):
        for (n, text), count in self.notes.items():
            require(count <= self.sends.get((n, text), 0), f"{count} letters of {n} {text[:200]} came, and fewer were put")
        for sender, n, text, sessions in self.full:
            is_full = any(self.boxes[session].most > BOX for session in sessions)
            require(is_full, f"file {sender}: a letter of {n} {text[:200]} was dropped, and no box can have been full")
        for sender in self.overfull:
            require(False, f"file {sender}: its box has more than {BOX} letters")
        unjudged = [session for session, box in self.boxes.items() if not box.judge(require)]
        for session in unjudged:
            print(f"file {session}: its letters have too many readings to be judged together")
