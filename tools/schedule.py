"""Reckons ahead how a build goes on: what is at work when, with how many processors, and how long all takes.

It is a library, and is not run. Of a crate it asks for the crates below it, the seconds of processor time that its proof
takes, and those of the longest chain that begins with it.
"""

# The part of a proof that one process does alone, as measured over some crates: more jobs make the rest of it quicker.
ALONE = 1 / 3
# More help little, as the kit says, and take memory.
MOST_JOBS = 8


def speed(jobs):
    """How much quicker a proof is with so many jobs than with one."""
    return 1 / (ALONE + (1 - ALONE) / jobs)


class Forecast:
    """What is to come: each crate starts as soon as it can, the longest chain first, and has its part of what is idle.

    `waiting` are the crates that have not begun; of those that have, `at_work` has the jobs and the seconds of work that
    are left. Then `seconds` is how long all takes, and `average` has for each crate its processors over its whole proof.
    """

    def __init__(self, waiting, at_work, processors):
        self.processors, self.seconds = processors, 0
        self.waiting = sorted(waiting, key=lambda it: -it.chain)
        self.jobs = {crate: jobs for crate, (jobs, _) in at_work.items()}
        self.left = {crate: left for crate, (_, left) in at_work.items()}
        self.used, self.lasted = ({it: 0 for it in [*waiting, *at_work]} for _ in range(2))
        while self.waiting or self.left:
            self.start_crates()
            self.go_on(self.shares())
        self.average = {it: used / self.lasted[it] for it, used in self.used.items() if self.lasted[it]}

    def start_crates(self):
        """Starts what can start, as long as a processor is left for it."""
        unproved = {*self.waiting, *self.left}
        for crate in [it for it in self.waiting if not it.below & unproved]:
            if self.left and sum(self.jobs.get(it, 1) for it in self.left) >= self.processors:
                return
            self.waiting.remove(crate)
            self.left[crate] = crate.work()

    def shares(self):
        """The processors of each crate at work: those of now keep their jobs, and the others share what is left."""
        shares = {it: jobs for it, jobs in self.jobs.items() if it in self.left}
        others = sorted((it for it in self.left if it not in shares), key=lambda it: -it.chain)
        each, more = divmod(max(self.processors - sum(shares.values()), len(others)), max(len(others), 1))
        for place, crate in enumerate(others):
            shares[crate] = min(each + (place < more), MOST_JOBS)
        return shares

    def go_on(self, shares):
        """Goes on until the next crate is proved."""
        step = min(self.left[it] / speed(jobs) for it, jobs in shares.items())
        self.seconds += step
        for crate, jobs in shares.items():
            self.used[crate] += step * jobs
            self.lasted[crate] += step
            self.left[crate] -= step * speed(jobs)
        self.left = {it: left for it, left in self.left.items() if left > step / 10**9}
