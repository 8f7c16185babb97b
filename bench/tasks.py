"""Texts of domains, problems and plans for bench/grounding and bench/validate, and how long the program takes with them."""
import os
import subprocess
import sys
import time

HERE = os.path.dirname(os.path.realpath(__file__))
PROGRAM = os.path.join(HERE, "..", "fluxplan")
BUILT = os.path.join(HERE, "..", "crates", "planner_cli", "out", "planner_cli")


def build():
    """Has the program proved and built, if it isn't, and answers where it lies."""
    subprocess.run([PROGRAM], stdout=subprocess.DEVNULL)
    if not os.path.exists(BUILT):
        sys.exit("the program was not built; what ./fluxplan says stands above")
    return BUILT


def seconds(binary, folder, texts, wanted, options=(), times=3):
    """The least seconds of a whole run of `validate` over the three texts, whose reply has to begin as wanted."""
    files = [os.path.join(folder, name) for name in ("domain", "problem", "plan")]
    for file, text in zip(files, texts):
        with open(file, "w") as out:
            out.write(text)
    spent = []
    for _ in range(times):
        start = time.perf_counter()
        reply = subprocess.run([binary, "validate", *files, *options], stdout=subprocess.PIPE).stdout.decode()
        spent.append(time.perf_counter() - start)
        if not reply.startswith(wanted):
            sys.exit(f"{wanted!r} was to be answered, not {reply!r}")
    return min(spent)


def objects(prefix, count, kind):
    return " ".join(f"{prefix}{k}" for k in range(count)) + f" - {kind}"


def problem(name, objects_text, init, goal, rest=""):
    return f"(define (problem {name}-1) (:domain {name}) (:objects {objects_text})\n(:init {init})\n(:goal {goal}){rest})\n"


# ---- trucks that carry two parcels each from the depot to a site of their own

HAUL = """(define (domain haul)
(:requirements :typing :fluents :durative-actions :continuous-effects)
(:types truck parcel place)
(:predicates (at ?t - truck ?l - place) (lies ?p - parcel ?l - place) (in ?p - parcel ?t - truck))
(:functions (fuel ?t - truck) (dist ?a ?b - place))
(:durative-action drive :parameters (?t - truck ?a ?b - place) :duration (= ?duration (dist ?a ?b))
:condition (and (at start (at ?t ?a)) (over all (>= (fuel ?t) 0)))
:effect (and (at start (not (at ?t ?a))) (at end (at ?t ?b)) (decrease (fuel ?t) (* #t 2))))
(:durative-action load :parameters (?p - parcel ?t - truck ?l - place) :duration (= ?duration 1)
:condition (and (at start (lies ?p ?l)) (over all (at ?t ?l)))
:effect (and (at start (not (lies ?p ?l))) (at end (in ?p ?t))))
(:durative-action unload :parameters (?p - parcel ?t - truck ?l - place) :duration (= ?duration 1)
:condition (and (at start (in ?p ?t)) (over all (at ?t ?l)))
:effect (and (at start (not (in ?p ?t))) (at end (lies ?p ?l)))))
"""


def haul_problem(trucks):
    numbers = range(1, trucks + 1)
    things = "depot - place " + " ".join(f"s{i} - place t{i} - truck a{i} b{i} - parcel" for i in numbers)
    init = " ".join(f"(at t{i} depot) (= (fuel t{i}) 100) (lies a{i} depot) (lies b{i} depot) "
                    f"(= (dist depot s{i}) {10 + 13 * i % 17}) (= (dist s{i} depot) {10 + 13 * i % 17})" for i in numbers)
    goal = "(and " + " ".join(f"(lies a{i} s{i}) (lies b{i} s{i})" for i in numbers) + ")"
    return f"(define (problem haul-{trucks}) (:domain haul) (:objects {things})\n(:init {init})\n(:goal {goal}))\n"


# ---- machines that work for 1 each, in lanes of slots

# Each has a level that rises while it works.
WORK = """(define (domain work)
(:requirements :typing :fluents :durative-actions :continuous-effects)
(:types lane slot)
(:predicates (free ?l - lane ?s - slot) (marked ?l - lane ?s - slot))
(:functions (level ?l - lane ?s - slot))
(:durative-action work :parameters (?l - lane ?s - slot) :duration (= ?duration 1)
:condition (and (at start (free ?l ?s)) (over all (<= (level ?l ?s) 100000)))
:effect (and (at start (not (free ?l ?s))) (at end (free ?l ?s)) (at end (marked ?l ?s)) (increase (level ?l ?s) (* #t 2)))))
"""

# None has a level, so that there may be more of them.
MARK = """(define (domain work)
(:requirements :typing :durative-actions)
(:types lane slot)
(:predicates (free ?l - lane ?s - slot) (marked ?l - lane ?s - slot))
(:durative-action work :parameters (?l - lane ?s - slot) :duration (= ?duration 1)
:condition (and (at start (free ?l ?s)) (over all (marked ?l ?s)))
:effect (and (at start (not (free ?l ?s))) (at end (free ?l ?s)) (at start (marked ?l ?s)))))
"""


def work_problem(lanes, slots, has_levels):
    pairs = [(l, s) for l in range(lanes) for s in range(slots)]
    init = " ".join(f"(free l{l} s{s})" + (f" (= (level l{l} s{s}) 0)" if has_levels else "") for l, s in pairs)
    return problem("work", objects("l", lanes, "lane") + " " + objects("s", slots, "slot"), init, "(marked l0 s0)")


def work_plan(lanes, slots, lines, at_once):
    """So many lines, of which two thirds of `at_once` run at once; each machine rests before it works again."""
    pairs = [(l, s) for l in range(lanes) for s in range(slots)]
    step = 1.5 / at_once
    return "".join(f"{k * step:.6f}: (work l{pairs[k % len(pairs)][0]} s{pairs[k % len(pairs)][1]}) [1.000]\n" for k in range(lines))
