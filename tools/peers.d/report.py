"""What is counted of a suite: cases, the same, different with a reason by its name, different without one."""

import re
from collections import Counter


class Suite:
    def __init__(self, name, version, kind, reasons, exit="exited 0"):
        self.name, self.version, self.kind, self.reasons, self.exit = name, version, kind, reasons, exit
        self.same, self.excused, self.unlike, self.left_out = 0, Counter(), [], Counter()

    def count(self, is_same, ours, theirs):
        """Counts a case by what each side says of it. One that differs has the first reason that is for it and forgives the difference."""
        reasons = (name for name, pattern, forgiving in self.reasons
                   if re.match(pattern, theirs or ours) and forgiving(ours) == forgiving(theirs))
        reason = None if is_same else next(reasons, None)
        if is_same:
            self.same += 1
        elif reason:
            self.excused[reason] += 1
        else:
            self.unlike.append("%s | %s" % (ours, theirs))

    @property
    def cases(self):
        return self.same + sum(self.excused.values()) + len(self.unlike)

    def tell(self):
        print("%s %s, %s: %d cases, %d the same, %d different with a reason, %d without" % (
            self.name, self.version, self.kind, self.cases, self.same, sum(self.excused.values()), len(self.unlike)))
        for reason, count in sorted(self.excused.items()):
            print("  %d: %s" % (count, reason))
        for why, count in sorted(self.left_out.items()):
            print("  left out: %d, %s" % (count, why))
        for line in self.unlike[:20]:
            print("  differs: " + line)
        if not self.exit.startswith("exited"):
            print("  the client ended as %s" % self.exit)
