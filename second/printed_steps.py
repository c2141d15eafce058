"""The printed figures of the documents' single steps beside the desk's."""

from typing import Callable, NamedTuple, Sequence

from . import desk, documents, steps
from .documents import Cases
from .figures import AREA, COURSE, DISTANCE, PRECISION, Figure, Kind
from .steps import Answer


def sea_level_factor(elevation: int) -> list[Answer]:
    return [steps.sea_level_factor(elevation)]


def combined_factor(sea_level: int, scale: int) -> list[Answer]:
    return [steps.combined_factor(sea_level, scale)]


def grid_distance(distance: int, combined: int) -> list[Answer]:
    return [steps.grid_distance(distance, combined)]


def course(distance: int, azimuth: int) -> list[Answer]:
    return [steps.latitude(distance, azimuth), steps.departure(distance, azimuth)]


def sine_and_cosine(angle: int) -> list[Answer]:
    return [steps.sine(angle), steps.cosine(angle)]


def sine_and_cosine_sizes(angle: int) -> list[Answer]:
    return [answer._replace(value=abs(answer.value)) for answer in sine_and_cosine(angle)]


def carried_azimuths(to_mark: int, first: int, *later: int) -> list[Answer]:
    """The azimuths of all legs, each from the one before."""
    answers = [steps.first_azimuth(to_mark, first)]
    for angle in later:
        answers.append(steps.next_azimuth(answers[-1].value, angle))
    return answers


def angle_shares(w: int, angles: int) -> list[Answer]:
    """The running shares at every angle; there is one angle more than legs."""
    return [steps.angle_share(w, angles - 1, number) for number in range(1, angles + 1)]


def closure_shares(north: int, east: int, part: int, whole: int) -> list[Answer]:
    return [steps.closure_share(closure, part, whole) for closure in (north, east)]


def precision_number(north: int, east: int, total: int) -> list[Answer]:
    return [steps.precision_number(north, east, total)]


def doubled_area(*words: int) -> list[Answer]:
    return [steps.doubled_area(words)]


class Step(NamedTuple):
    """A kind of single step, and the names of its figures; none where they are numbered."""

    kind: Kind
    work: Callable[..., list[Answer]]
    outputs: tuple[str, ...]


STEPS = {
    "sea_level_factor": Step(Kind("sea level factors", "", 7), sea_level_factor, ("factor",)),
    "combined_factor": Step(Kind("combined factors", "", 7), combined_factor, ("factor",)),
    "grid_distance": Step(DISTANCE, grid_distance, ("length",)),
    "course": Step(COURSE, course, ("latitude", "departure")),
    "sine_and_cosine": Step(Kind("sines and cosines", "", 9), sine_and_cosine, ("sine", "cosine")),
    "sine_and_cosine_sizes": Step(
        Kind("sines and cosines without sign", "", 9), sine_and_cosine_sizes, ("sine", "cosine")),
    "carried_azimuths": Step(Kind("carried azimuths", "seconds", 1), carried_azimuths, ()),
    "angle_shares": Step(Kind("running shares of W", "seconds", 1), angle_shares, ()),
    "closure_shares": Step(Kind("shares of closures", "feet", 2), closure_shares, ("northing", "easting")),
    "precision_number": Step(PRECISION, precision_number, ("number",)),
    "doubled_area": Step(AREA, doubled_area, ("area",)),
}


def worked_out(step: Step, given: Sequence[int]) -> list[int]:
    """What the desk's step gives, which refuses none of the documents' figures."""
    return [desk.sure(answer) for answer in step.work(*given)]


def of_cases(name: str, places: Cases) -> list[Figure]:
    """Every figure of the cases from one place of a document."""
    step = STEPS[name]
    decimals = step.kind.decimals if places.decimals is None else places.decimals
    figures = []
    for case in places.cases:
        own = worked_out(step, case.given)
        outputs = step.outputs or [f"at angle {number}" for number, _ in enumerate(own, start=1)]
        for output, printed, value in zip(outputs, case.published, own, strict=True):
            figures.append(Figure(step.kind, ", ".join(filter(None, (case.at, output))), printed, decimals, value))
    return figures


def of_step(name: str) -> list[Figure]:
    """Every figure of one kind of step."""
    return [figure for places in documents.single_steps()[name] for figure in of_cases(name, places)]
