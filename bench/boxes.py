"""Boxes and tokens, apart from the program: what docs/FORMATS.md says of them, in plain words and without haste.

A box is a list of slots (lo, hi, walk). `Decision` replays a list of tokens from the root box, and gives the rule token of a box.
"""


class Decision:
    def __init__(self, edges, slots, limit):
        """edges: a weight for each pair of names, in file order; limit: a number or None."""
        self.ends, self.weights = list(edges), list(edges.values())
        self.limit = limit
        tails, heads = {tail for tail, _ in self.ends}, {head for _, head in self.ends}
        self.sinks = heads - tails
        self.starts = [e for e, (tail, _) in enumerate(self.ends) if tail not in heads]
        self.out = {}
        for e, (tail, _) in enumerate(self.ends):
            self.out.setdefault(tail, []).append(e)
        self.ahead = {}
        for vertex in tails | heads:
            reached, left = {vertex}, [vertex]
            while left:
                for e in self.out.get(left.pop(), []):
                    head = self.ends[e][1]
                    if head not in reached:
                        reached.add(head)
                        left.append(head)
            self.ahead[vertex] = {e for e, (tail, _) in enumerate(self.ends) if tail in reached}
        self.root = [(0, max([1] + self.weights), ())] * slots

    def end(self, walk):
        return self.ends[walk[-1]][1]

    def bounds(self, box):
        """The lower and the upper bound of each slot's weight."""
        lows = [max(lo for lo, _, _ in box[k:]) for k in range(len(box))]
        highs = [min(hi for _, hi, _ in box[: k + 1]) for k in range(len(box))]
        return lows, highs

    def gap(self, box):
        lows, highs = self.bounds(box)
        least, most = [0] * len(self.ends), [0] * len(self.ends)
        for (_, _, walk), low, high in zip(box, lows, highs):
            for e in walk:
                least[e] += low
            for e in range(len(self.ends)) if not walk else set(walk) | self.ahead[self.end(walk)]:
                most[e] += high
        return sum(max(0, least[e] - weight, weight - most[e]) for e, weight in enumerate(self.weights))

    def is_closed(self, box):
        return self.limit is not None and self.gap(box) > self.limit

    def is_legal(self, box, token):
        kind, slot = token
        if kind == "gap":
            return self.is_closed(box)
        if kind not in ("split", "step") or not 0 <= slot < len(box) or not self.ends or self.is_closed(box):
            return False
        lows, highs = self.bounds(box)
        if kind == "split":
            return lows[slot] < highs[slot]
        walk = box[slot][2]
        return highs[slot] >= 1 and not (walk and self.end(walk) in self.sinks)

    def after(self, box, token):
        """The boxes in place of a box."""
        kind, slot = token
        if kind == "gap":
            return []
        lo, hi, walk = box[slot]
        if kind == "split":
            lows, highs = self.bounds(box)
            middle = (lows[slot] + highs[slot]) // 2
            changed = [(lo, middle, walk), (middle + 1, hi, walk)]
        else:
            changed = [(lo, hi, walk + (e,)) for e in (self.out[self.end(walk)] if walk else self.starts)]
        return [box[:slot] + [one] + box[slot + 1 :] for one in changed]

    def rule_token(self, box):
        """The gap, else the first slot that can step, else the first that can be split, or None."""
        if self.is_closed(box):
            return ("gap", None)
        if self.ends:
            lows, highs = self.bounds(box)
            for slot, (_, _, walk) in enumerate(box):
                if highs[slot] >= 1 and not (walk and self.end(walk) in self.sinks):
                    return ("step", slot)
            for slot in range(len(box)):
                if lows[slot] < highs[slot]:
                    return ("split", slot)
        return None

    def replay(self, tokens):
        """The boxes that the tokens leave, or the place of the first that is not legal; and whether each was the rule token."""
        boxes, by_rule = [self.root], True
        for place, token in enumerate(tokens):
            if not boxes or not self.is_legal(boxes[-1], token):
                return place, None, False
            by_rule = by_rule and token == self.rule_token(boxes[-1])
            boxes[-1:] = reversed(self.after(boxes[-1], token))
        return None, boxes, by_rule
