"""The state of an archive for Prometheus, in the text format that node exporter's textfile collector reads (exposition format 0.0.4)."""

from __future__ import annotations

from typing import Dict, Iterable, List, NamedTuple, Sequence, Tuple

from ..local.saving import require_own, save
from ..protocol import limits
from .catalogue import STATE_CLOSED, STATE_CLOSING, STATE_FULL, STATE_NEW, STATE_OPEN, STATE_RETIRED
from .config import Config
from .lag import Lag
from .status import NEED_KINDS, Incomplete, VolumeStatus

METRICS_BEGIN = b"# HELP udfburn_archive_"
"""How a file of this module begins."""

METRIC_STATES = (STATE_NEW, STATE_OPEN, STATE_FULL, STATE_CLOSING, STATE_CLOSED, "copied", "away", STATE_RETIRED)

MetricLabels = Tuple[Tuple[str, str], ...]


class Metric(NamedTuple):
    """A gauge: its name without the prefix, what it is, and its samples."""

    name: str
    help: str
    samples: Sequence[Tuple[MetricLabels, float]]


def metrics(config: Config, lines: Sequence[VolumeStatus], lacking: Sequence[Incomplete]) -> List[Metric]:
    """What is told of an archive. Times are seconds from 1970 on."""
    needed = [need.kind for line in lines for need in line.needs] + [one.need().kind for one in lacking]
    closed = [line for line in lines if line.row.state == STATE_CLOSED]
    checks = [line.row.checked or line.row.closed or 0 for line in closed if line.at_hand]
    return [
        Metric("attention", "Things that need somebody, as udfburn-archive status --check lists them.", [((("kind", kind),), needed.count(kind)) for kind in NEED_KINDS]),
        Metric("volumes", "Volumes by their state.", [((("state", state),), sum(line.state == state for line in lines)) for state in METRIC_STATES]),
        Metric("volume_files", "Files on all volumes, where one counts once on each volume that has a part of it, or says which other file has its bytes.", [((), sum(line.row.files for line in lines))]),
        Metric("volume_size_bytes", "Bytes of all images.", [((), sum(line.row.length or line.row.blocks * limits.BLOCK for line in lines))]),
        Metric("copies", "Good copies of closed volumes, by remote.", [((("remote", remote),), len(times)) for remote, times in copies(config, closed)]),
        Metric("oldest_check_timestamp_seconds", "When the closed image at hand was checked whose check is the oldest.", [((), min(checks) / 1e6)] if checks else []),
        Metric(
            "copy_oldest_check_timestamp_seconds", "When the good copy was checked whose check is the oldest, by remote.",
            [((("remote", remote),), min(times) / 1e6) for remote, times in copies(config, closed) if times],
        ),
        *lagging(config, [lag for line in lines for lag in line.lags]),
    ]


def lagging(config: Config, found: Sequence[Lag]) -> List[Metric]:
    """What the copies of open volumes lack, by remote."""
    lacked = [(remote, sum(lag.bytes for lag in found if lag.remote == remote)) for remote in config.copies]
    first = [(lag.remote, lag.since) for lag in sorted(found, key=lambda lag: lag.since or 0, reverse=True) if lag.since is not None]
    return [
        Metric("open_copy_lacking_bytes", "Bytes that the copies of open volumes lack, by remote.", [((("remote", remote),), count) for remote, count in lacked]),
        Metric(
            "open_copy_lacking_since_timestamp_seconds", "When the first of what the copies of open volumes lack was added, by remote.",
            [((("remote", remote),), since / 1e6) for remote, since in dict(first).items()],
        ),
    ]


def copies(config: Config, closed: Sequence[VolumeStatus]) -> Iterable[Tuple[str, List[int]]]:
    """When the good copies on each remote were checked."""
    found: Dict[str, List[int]] = {remote: [] for remote in config.copies}
    for line in closed:
        for copy in line.copies:
            if copy.remote in found and copy.trouble is None:
                found[copy.remote].append(copy.checked)
    return found.items()


def metrics_text(config: Config, found: Sequence[Metric]) -> str:
    """Metrics as Prometheus reads them. All have the label of the archive."""
    written: List[str] = []
    for metric in found:
        name = f"udfburn_archive_{metric.name}"
        written += [f"# HELP {name} {metric.help}", f"# TYPE {name} gauge"] if metric.samples else []
        for labels, value in metric.samples:
            words = ",".join(f'{key}="{label_value(value)}"' for key, value in (("archive", config.label), *labels))
            written.append(f"{name}{{{words}}} {value:.15g}")
    return "\n".join(written) + "\n"


def label_value(value: str) -> str:
    """The value of a label."""
    return value.replace("\\", "\\\\").replace('"', '\\"').replace("\n", "\\n")


def write_metrics(config: Config, path: str, lines: Sequence[VolumeStatus], lacking: Sequence[Incomplete]) -> None:
    """Writes the file, which has its name once it is whole and on the disk. One that is not of this command is left alone."""
    require_own(path, (METRICS_BEGIN,), "a file of metrics")
    save(path, [metrics_text(config, metrics(config, lines, lacking)).encode()], None, True, 0o644)
