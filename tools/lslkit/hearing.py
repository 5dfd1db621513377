"""Why nobody heard what was said, took a touch, or did anything when the clock went on: from the state of each script
at that step. The words are in tools/words/causes.json."""
from collections import namedtuple

from . import journal, messages, snapshot, stating, syntax, telling, tokens, worlds
from .past import RUNS
from .places import bytes_of
from .quoting import quoted
from .stage import SENDERS_PRIM
from .words import filled, table

TOUCHES = ("touch_start", "touch", "touch_end")
# The steps that scripts may take.
ACTS = ("say", "touch", "clock", "changed", "rez")
# What was said: the channel, who said it with name and key, the text, and the script that said it or none.
Spoken = namedtuple("Spoken", "channel who key text speaker")
NO_KEY = "00000000-0000-0000-0000-000000000000"


def said(cause, **fields):
    return filled(table("causes")[cause], fields)


def handlers_of(file):
    """For each state of a script the events that it handles."""
    try:
        script = syntax.read(tokens.cut(bytes_of(file) or b""))
    except (syntax.Unexpected, RecursionError):
        return {}
    return {it.text: [handler.text for handler in it.parts] for it in script.states}


class Hearing:
    """The causes in one world's past."""

    def __init__(self, past, since=0):
        # `since` is the step from which on what happens is new.
        self.past, self.world, self.since = past, past.world, since
        self.names = stating.names_of(self.world)
        self.handled = [handlers_of(it.file) for it in self.world.scripts]

    def scripts(self, count):
        moment = self.past.after(count)
        return snapshot.scripts(moment.state) if moment and moment.state else []

    def name(self, at):
        return self.names.script(at + 1)

    def handles(self, at, script, event):
        return event in self.handled[at].get(script.state, (event,))

    def causes(self, step):
        """Why a step had no effect, as lines; none where it had one."""
        it = self.world.steps[step]
        rule = getattr(self, f"of_{it.word}") if it.word in ACTS else None
        found = [*rule(step, it), *self.of_chats(step), *self.of_messages(step)] if rule else []
        return list(dict.fromkeys(found))

    # What stops a script

    def halted(self, at, count):
        """Why a script takes nothing at a moment: it is dead, asleep, or its handler still runs."""
        script = self.scripts(count)[at]
        if script.rest == "dead":
            return said("dead", script=self.name(at), fault=script.fault, where=self.step_of_fault(at))
        if script.rest != "running":
            return None
        if script.wakes > self.past.after(count).state.clock:
            return said("asleep", script=self.name(at), event=script.event.name, until=telling.seconds(script.wakes))
        line = f", line {script.calls[0].line}" if script.calls else ""
        return said("running", script=self.name(at), event=script.event.name, line=line)

    def step_of_fault(self, at):
        """At which step a script stopped."""
        step = self.past.step_of_fault(at + 1)
        return "" if step is None else f" {self.past.label(step)}"

    def still_running(self, count):
        """The scripts whose handlers still run, and don't sleep."""
        clock = self.past.after(count).state.clock if self.scripts(count) else 0
        places = [at for at, it in enumerate(self.scripts(count)) if it.rest == "running" and it.wakes <= clock]
        return [self.halted(at, count) for at in places]

    # What is said

    def of_say(self, step, it):
        return self.of_text(step, Spoken(int(it.fields[0]), it.fields[1], it.fields[2].lower(), it.fields[3], None))

    def of_text(self, step, spoken):
        """The causes for each script that doesn't take a text that was said at a step; of those that listen on another
        channel only where nobody takes it."""
        near, far, is_heard = [], [], False
        for at, script in enumerate(self.scripts(step)):
            if self.world.scripts[at].prim.name == SENDERS_PRIM:
                continue
            cause = self.deaf(at, script, step, spoken)
            if cause is None:
                is_heard = True
                near += self.waiting(at, step, "listen")
            else:
                (near if cause[0] else far).append(cause[1])
        return near if is_heard else [*near, *far]

    def takes(self, at, step, event):
        """Whether a script takes an event of this name at a step or before the next one of another sort."""
        taken = [it for one in self.with_runs(step) for it in self.past.new_at(one)]
        return any(it.word == "took" and it.number == at + 1 and it.rest.split(" ")[0] == event for it in taken)

    def of_chats(self, step):
        """What scripts said at a step on a channel on which scripts listen, or did, of which none hears it."""
        for entry in (it for one in self.with_runs(step) for it in self.past.new_at(one)):
            if entry.word == "chat":
                (_, _), (channel, _), (text, _) = journal.fields(entry.rest)
                prim = self.world.scripts[entry.number - 1].prim
                spoken = Spoken(int(channel), prim.name, prim.key, text, entry.number - 1)
                # People hear what is said on channel 0.
                yield from self.of_chat(step + 1, spoken) if spoken.channel else ()

    def of_chat(self, count, spoken):
        count = min(count, len(self.world.steps))
        heard = [self.deaf(at, it, count, spoken) for at, it in enumerate(self.scripts(count))]
        near = [it[1] for it in heard if it and it[0]]
        if near and None not in heard:
            fields = {"script": self.name(spoken.speaker), "channel": spoken.channel, "text": quoted(spoken.text)}
            yield f"{said('said', **fields)}: {'; '.join(near)}"

    def of_messages(self, step):
        """Messages that scripts sent to others of their object, of which none takes one."""
        steps = self.with_runs(step)
        is_taken = any(self.takes(at, step, messages.TAKEN) for at in range(len(self.world.scripts)))
        for number, line in () if is_taken or not self.past.new_at(steps.stop - 1) else messages.sent(self.past, steps):
            own = self.world.scripts[number - 1].prim
            others = [at for at in self.places_in(own.object) if at != number - 1]
            reasons = [self.halted(at, step) or self.without_handler(at, step) for at in others]
            if own.name != SENDERS_PRIM and None not in reasons:
                why = "; ".join(reasons) or said("alone")
                yield said("message", script=self.name(number - 1), line=line, why=why)

    def places_in(self, number):
        """The places of an object's scripts."""
        return [at for at, it in enumerate(self.world.scripts) if it.prim.object == number]

    def without_handler(self, at, step):
        script = self.scripts(step)[at]
        missing = said("no-handler", script=self.name(at), event=messages.TAKEN, state=script.state)
        return None if self.handles(at, script, messages.TAKEN) else missing

    def with_runs(self, step):
        """A step and the runs after it."""
        last = step + 1
        while last < len(self.world.steps) and self.world.steps[last].word in RUNS:
            last += 1
        return range(step, last)

    def deaf(self, at, script, step, spoken):
        """Whether a script is one that listens on the channel, and why it doesn't hear a text; none where it does."""
        name, channel = self.name(at), spoken.channel
        on = [it for it in script.listens if it.channel == channel]
        if script.rest == "dead":
            return True, self.halted(at, step)
        speaker = self.world.scripts[spoken.speaker] if spoken.speaker is not None else None
        if speaker and self.world.scripts[at].prim == speaker.prim:
            return (True, said("own-prim", script=name)) if on else (False, self.no_listen(at, script, channel))
        if not on:
            gone = self.gone_listen(at, step, channel)
            return (True, gone) if gone else (False, self.no_listen(at, script, channel))
        reasons = [self.filtered(it, name, spoken) for it in on]
        if None not in reasons:
            return True, reasons[0]
        if not self.handles(at, script, "listen"):
            return True, said("no-handler", script=name, event="listen", state=script.state)
        return (True, self.full(at, step)) if len(script.queue) >= 64 else None

    def full(self, at, step):
        """That a script's queue takes no more, and why."""
        halted = self.halted(at, step)
        return said("full", script=self.name(at)) + (f"; {halted}" if halted else "")

    def no_listen(self, at, script, channel):
        channels = sorted({it.channel for it in script.listens})
        if not channels:
            return said("no-listen", script=self.name(at))
        return said("other-channels", script=self.name(at), channels=", ".join(map(str, channels)), channel=channel)

    def filtered(self, listen, name, spoken):
        """Which part of a listen doesn't fit; none where all fit."""
        fields = {"script": name, "channel": listen.channel, "who": spoken.who or "someone"}
        if not listen.is_active:
            return said("off", **fields)
        if listen.name and listen.name != spoken.who:
            return said("name", wanted=quoted(listen.name), **fields)
        is_asked = worlds.KEY.fullmatch(listen.id) and listen.id != NO_KEY
        if is_asked and listen.id != spoken.key:
            return said("id", wanted=self.names.value(listen.id, True), **fields)
        if listen.message and listen.message != spoken.text:
            return said("text", wanted=quoted(listen.message), **fields)
        return None

    def gone_listen(self, at, step, channel):
        """How a listen on a channel went that a script had at an earlier step; none where it had none."""
        for earlier in range(step - 1, -1, -1):
            had = [it for it in self.scripts(earlier)[at].listens if it.channel == channel]
            if had:
                return self.how_it_went(at, earlier, channel)
        return None

    def how_it_went(self, at, step, channel):
        cleared = any(it.word == "clear" and it.number == at + 1 for it in self.past.new_at(step))
        state, before = self.scripts(step + 1)[at].state, self.scripts(step)[at].state
        fields = {"script": self.name(at), "channel": channel, "step": self.past.label(step), "state": state}
        if not cleared:
            return said("listen-removed", **fields)
        return said("listen-went-reset" if state == before else "listen-went-state", **fields)

    def waiting(self, at, step, event):
        """Why an event that a script has got isn't taken yet."""
        halted = None if self.takes(at, step, event) else self.halted(at, step)
        return [halted] if halted and self.is_run(step) else []

    def is_run(self, step):
        """Whether scripts run after a step, before the next one."""
        return step + 1 < len(self.world.steps) and self.world.steps[step + 1].word in RUNS

    # Touches, changes and the clock

    def of_touch(self, step, it):
        number, link = int(it.fields[0]), max(1, int(it.fields[1]))
        if self.world.objects[number - 1].prims[link - 1].name == SENDERS_PRIM:
            return list(self.of_event(step, number, "link_message"))
        links = {at: self.world.scripts[at].prim.link for at in self.places_in(number)}
        own = [at for at, it in links.items() if it == link]
        takers = [at for at in own if self.has_touch(at, step)] or [at for at, it in links.items() if it == 1]
        if not takers and not own:
            return [said("no-script")]
        return [cause for at in dict.fromkeys([*takers, *own]) for cause in self.untouched(at, step)]

    def has_touch(self, at, step):
        script = self.scripts(step)[at]
        return any(self.handles(at, script, it) for it in TOUCHES)

    def untouched(self, at, step):
        script = self.scripts(step)[at]
        if script.rest == "dead":
            return [self.halted(at, step)]
        if not self.has_touch(at, step):
            return [said("no-handler", script=self.name(at), event="touch_start", state=script.state)]
        if any(self.takes(at, step, it) for it in TOUCHES) or not self.is_run(step):
            return []
        return self.lost(at, step) or self.waiting(at, step, "touch_start")

    def lost(self, at, step):
        """Events that a script has got and lost again at a step, or that its full queue didn't take."""
        if len(self.scripts(step)[at].queue) >= 64:
            return [self.full(at, step)]
        return []

    def of_changed(self, step, it):
        return self.of_event(step, int(it.fields[0]), "changed")

    def of_rez(self, step, it):
        return self.of_event(step, int(it.fields[0]), "on_rez")

    def of_event(self, step, number, event):
        for at, one in enumerate(self.world.scripts):
            is_other = one.prim.object != number or one.prim.name == SENDERS_PRIM
            if not is_other and self.is_run(step) and not self.takes(at, step, event):
                script = self.scripts(step)[at]
                halted = self.halted(at, step)
                missing = said("no-handler", script=self.name(at), event=event, state=script.state)
                yield halted or (missing if not self.handles(at, script, event) else self.full(at, step))

    def has_news(self, step):
        """Whether anything came of a reading of the clock, or of those just before it."""
        first = step
        while first > max(self.since, 1) and self.world.steps[first - 1].word in (*RUNS, "clock"):
            first -= 1
        return self.past.count_after(self.with_runs(step).stop) > self.past.count_after(min(first, step))

    def of_clock(self, step, _):
        if self.has_news(step):
            return
        moment = self.past.after(step + 1)
        for at, script in enumerate(self.scripts(step + 1)):
            halted = self.halted(at, step + 1)
            if halted:
                yield halted
            elif script.timer[0] and not self.handles(at, script, "timer"):
                yield said("no-timer-handler", script=self.name(at), state=script.state)
        if not any(it.timer[0] or it.wakes > moment.state.clock or it.rest != "idle" for it in self.scripts(step + 1)):
            yield said("no-timer")
