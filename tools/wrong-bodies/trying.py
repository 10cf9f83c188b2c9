"""The tries of bodies: which share a check, and what each check says of them."""

import sys
import threading
import time

from bodies import Unfit
from copies import Copy
from functions import function_of, verdict_of
from tree import below, lowest_first
from verdicts import Report, declarations, judge, without

FEWEST, MOST = 4, 16
ROUNDS = 4


class Queue:
    """The bodies of a crate that are still to be tried."""

    def __init__(self, crate, bodies, base, verdicts):
        self.crate, self.base, self.todo, self.results = crate, base, [], {}
        self.clashes, self.alone, self.running = set(), set(), 0
        for body in bodies:
            try:
                function, is_inside = function_of(body, base.text(crate, body.source))
                body.verdict = verdict_of(function, crate, body.source, verdicts)
            except (Unfit, OSError) as fault:
                self.results[body] = ("unread", str(fault))
                continue
            self.todo.append(body)
            if not is_inside:
                self.alone.add(body)

    def verdicts(self):
        """What a check calls the functions that the bodies change."""
        return sorted({body.verdict for body in self.todo})

    def fits(self, body, pack):
        """Whether a body may share a check with others."""
        return all(
            body.verdict != other.verdict and frozenset((body, other)) not in self.clashes and not (body.cuts & other.cuts) for other in pack
        )

    def take(self, most):
        """The bodies of the next check, and the texts of the files that they change."""
        pack, texts = [], {}
        for body in [body for body in self.todo if body not in self.alone] or self.todo[:1]:
            if len(pack) < most and self.fits(body, pack):
                try:
                    texts.update(self.texts_of(body, texts))
                    pack.append(body)
                except Unfit:
                    continue
        self.todo = [body for body in self.todo if body not in pack]
        self.running += 1
        return pack, texts

    def texts_of(self, body, texts):
        """The texts of the files that a body changes, over those that others have changed."""

        changed = {}

        def text_of(file):
            return next((known[file] for known in (changed, texts) if file in known), None) or self.base.text(self.crate, file)

        source = str(body.source)
        changed[source] = body.apply(text_of(source))
        for file, name in sorted(body.cuts):
            changed[file] = without(text_of(file), name)
        return changed

    def settle(self, pack, report):
        """Takes over what a check said of its bodies. It returns how many were refused."""
        told = {body: judge(body, report) for body in pack}
        if len(pack) > 1 and all(word == "unread" for word, _ in told.values()):
            self.part(pack, report)
            return 0
        refused = [body for body in pack if told[body][0] in ("refused", "answers", "names")]
        for body in pack:
            self.settle_one(body, *told[body], [other for other in refused if other is not body], report, len(pack) > 1)
        return sum(told[body][0] == "refused" for body in pack)

    def settle_one(self, body, word, why, others, report, is_shared):
        if word == "answers" and self.drop_answers(body, report):
            self.todo.append(body)
        elif is_shared and word == "masked" and others:
            self.clashes.update(frozenset((body, other)) for other in others)
            self.todo.append(body)
        elif is_shared and word in ("masked", "unread", "unclear"):
            self.alone.add(body)
            self.todo.append(body)
        else:
            self.results[body] = (word, why)

    def drop_answers(self, body, report):
        """Notes the written answers that don't fit a body, for a try without them. It tells whether there are new ones."""
        before, texts = len(body.cuts), self.texts_of(body, {})
        for fault in report.faults_of(body.verdict):
            text = texts.get(fault.file) or self.base.text(self.crate, fault.file)
            body.cuts.update((fault.file, name) for name, begin, end in declarations(text) if begin < fault.line <= end)
        # Without an invariant or a proof by hand each goal is open, so only one that can be false tells something.
        taken = [file for file, _ in body.cuts if not file.endswith("Answers.antt")]
        body.lost = body.lost or bool(taken) or report.names_gone(body.verdict)
        body.rounds += 1
        return len(body.cuts) > before and body.rounds <= ROUNDS

    def part(self, pack, report):
        """Parts bodies one of which makes the crate unreadable: those near the error, or else the halves."""
        error = report.first_error()
        near = [body for body in pack if f"{body.source}:" in error]
        if near and len(near) < len(pack):
            self.alone.update(near)
        else:
            half = len(pack) // 2
            self.clashes.update(frozenset((one, other)) for one in pack[:half] for other in pack[half:])
        self.todo += pack


class Tries:
    """All crates that are still to be checked, the queues of those that are, and the workers: each has a copy of its own."""

    def __init__(self, base, bodies, folder, jobs, say, keep=None, end=None):
        self.base, self.bodies, self.folder, self.jobs, self.say, self.keep, self.end = base, bodies, folder, jobs, say, keep, end
        self.todo, self.checked, self.queues = self.to_check(), set(), []
        self.lock, self.count, self.waiting, self.fault = threading.Condition(), 0, 0, None

    def run(self):
        workers = [threading.Thread(target=self.work, args=(number,), daemon=True) for number in range(self.jobs)]
        for worker in workers:
            worker.start()
        for worker in workers:
            worker.join()
        if self.fault:
            sys.exit(f"wrong-bodies: {self.fault}")
        return {body: result for queue in self.queues for body, result in queue.results.items()}

    def to_check(self):
        """The crates to check as they stand: those below first, unless their libraries are there, else those with the most bodies.

        Where the time is bounded they are in the order in which they were given.
        """
        if self.base.built and self.end:
            return list(self.bodies)
        if self.base.built:
            return sorted(self.bodies, key=lambda crate: -len(self.bodies[crate]))
        return lowest_first(self.bodies, self.base.crates)

    def is_free(self, crate):
        """Whether a crate can be checked now."""
        return bool(self.base.built) or self.checked.issuperset(below(crate, self.base.crates))

    def next(self, last):
        """What a worker does next: the queue that it was at, else a crate to check, else the longest queue, else nothing more."""
        with self.lock:
            while not self.fault and not (self.end and time.time() > self.end):
                full = [queue for queue in self.queues if queue.todo]
                free = [crate for crate in self.todo if self.is_free(crate)]
                if free and last not in full:
                    self.todo.remove(free[0])
                    return self.check, (free[0], 1 + self.waiting // len(free))
                if full:
                    queue = last if last in full else max(full, key=lambda one: len(one.todo))
                    return self.try_together, (queue, *queue.take(self.most()))
                if not self.todo and not any(queue.running for queue in self.queues) and self.checked.issuperset(self.bodies):
                    break
                self.waiting += 1
                self.lock.wait()
                self.waiting -= 1
            self.lock.notify_all()
            return None, ()

    def most(self):
        """How many bodies may share a check: many, unless a worker would have nothing to do meanwhile."""
        left = sum(len(queue.todo) for queue in self.queues)
        if not self.waiting:
            left += sum(len(bodies) for crate, bodies in self.bodies.items() if crate not in self.checked)
        return min(MOST, max(FEWEST, -(-left // self.jobs)))

    def work(self, number):
        copy, last = Copy(self.folder / f"copy-{number}", self.base.root, self.base.built), None
        while True:
            step, given = self.next(last)
            if not step:
                return
            last = step(copy, *given)

    def check(self, _, crate, jobs):
        """Checks a crate as it stands, with this number of jobs, unless its library is built. It returns the queue of its bodies."""
        begin, report = time.time(), None
        built = self.base.names_built(crate)
        queue = Queue(crate, self.bodies[crate], self.base, built) if built else None
        if not queue:
            self.base.fetch(crate, "incremental")
            self.base.fetch(crate, "rlib")
            report = Report(self.base.check(crate, jobs=jobs))
            self.base.build(crate)
        with self.lock:
            if report:
                self.say(f"{crate}: checked in {time.time() - begin:.0f} s")
            if report and not report.is_proved:
                self.fault = self.fault or f"{crate} must be proved first: {report.first_error()}"
            elif crate in self.bodies:
                queue = queue or Queue(crate, self.bodies[crate], self.base, report.verdicts)
                self.queues.append(queue)
            self.checked.add(crate)
            self.lock.notify_all()
        return queue

    def try_together(self, copy, queue, pack, texts):
        """Checks a crate with some bodies, and takes over what the check says of them. It returns their queue."""
        begin = time.time()
        try:
            copy.prepare(queue.crate)
            report = Report(copy.check(queue.crate, texts, only=[body.verdict for body in pack]))
        except Exception as fault:
            report = fault
        with self.lock:
            self.count += 1
            queue.running -= 1
            if self.base.built:
                self.base.keep(copy, queue.crate)
            if isinstance(report, Exception):
                queue.results.update((body, ("unclear", repr(report))) for body in pack)
                refused = 0
            else:
                if self.keep:
                    (self.keep / f"{queue.crate}.{self.count}.log").write_text("\n".join([*map(str, pack), report.out]), encoding="utf-8")
                refused = queue.settle(pack, report)
            self.say(f"{queue.crate}: {refused} of {len(pack)} refused in {time.time() - begin:.0f} s, {len(queue.todo)} to go")
            for body in pack:
                word, why = queue.results.get(body, ("refused", ""))
                if word != "refused":
                    self.say(f"{word}: {body}: {why[:200]}")
            self.lock.notify_all()
        return queue
