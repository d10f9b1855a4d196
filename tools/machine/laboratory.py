"""Runs one test after another with one compiled harness, and compares each with its list."""
from __future__ import annotations

from collections.abc import Sequence
from random import Random
from typing import NamedTuple

import plain
from machine import assembly, processors, runs, scripts
from machine.assembly import Code
from machine.build import Builder
from machine.faults import NotRun
from machine.knobs import DEFAULTS, Knobs
from machine.plans import Limits, Plan
from machine.subjects import Subject, Words, make_list, make_other_list, make_subject
from machine.summary import Result

NONTEMPORAL = "A CONTROL: stores are MOVNTI, which go past the caches, in place of MOV. This is not the test, and states beyond the list are due."


class Settings(NamedTuple):
    """How a test is run: until when, with which knobs, whether all registers and locations are shown, and another test with whose list it is
    compared, if there is one.
    """

    limits: Limits = Limits()
    knobs: Knobs = DEFAULTS
    everything: bool = False
    against: Subject | None = None


def list_threads(subject: Subject, knobs: Knobs) -> list[Code]:
    """Returns the code of each thread. Raises NotRun if a control needs a register and none is free."""
    threads = [tuple(code) for code in subject.x86.threads]
    if not knobs["stores"]:
        return threads
    if len(subject.x86.locations) > assembly.SCRATCH - assembly.FIRST_ADDRESS:
        raise NotRun("stores=nontemporal needs a free register, and a test of 8 locations has none")
    return [assembly.make_stores_nontemporal(code) for code in threads]


class MeasuredRun(NamedTuple):
    """A run that has ended: its sightings, its plan, and the processors on which it ran."""

    seen: runs.Sightings
    plan: Plan
    here: processors.Processors


def list_notes(seen: runs.Sightings, ran: MeasuredRun, settings: Settings) -> list[str]:
    """Returns the notes that qualify sightings: of one run, or of several, of which one is `ran`."""
    control = [NONTEMPORAL] * bool(settings.knobs["stores"])
    return control + processors.list_obstacles(ran.here, len(ran.plan.threads)) + runs.list_missing(seen, ran.plan)


class Laboratory:
    """A compiled harness, and the processors that it runs on."""

    def __init__(self, compiler: Sequence[str], folder: str) -> None:
        """Compiles the harness in a folder. Raises NotRun if it does not compile."""
        self.builder = Builder(list(compiler), folder)

    def make_plan(self, subject: Subject, settings: Settings, listed: Sequence[Words], processors_here: processors.Processors) -> Plan:
        """Returns the plan of a run."""
        threads, knobs = list_threads(subject, settings.knobs), settings.knobs
        led = scripts.make_scripts(subject.x86, plain.format_canonical_text(subject.x86)) if knobs["schedules"] else []
        placements = processors.make_placements(processors_here, len(threads), Random())
        is_scarce = len(processors_here.allowed) < len(threads)
        return Plan(subject, threads, listed, led, placements, processors_here.has_clock, is_scarce, settings.limits, knobs)

    def run(self, subject: Subject, settings: Settings, states: Sequence[Words]) -> MeasuredRun:
        """Runs a test, which looks for some states: with `until_complete` it ends when all of them were seen."""
        processors_here = processors.read_processors()
        plan = self.make_plan(subject, settings, states, processors_here)
        return MeasuredRun(runs.run_plan(self.builder.build_program(plan.threads, subject.x86.registers), plan), plan, processors_here)

    def run_and_compare(self, file: str, text: str, settings: Settings) -> Result:
        """Runs a test, and compares it with its list or that of another test."""
        subject = make_subject(text, settings.everything)
        other = settings.against
        listed = make_other_list(subject, other) if other else make_list(subject)
        ran = self.run(subject, settings, listed.states)
        notes = list_notes(ran.seen, ran, settings)
        return Result(file, subject, listed, ran.seen, len(ran.here.allowed), other.shown.name if other else "", notes)
