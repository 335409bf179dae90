"""The part `service` of the script of `service_runs`: a model of a service on a disk in memory answers each line."""
import service_batches
import service_damage
import service_drafts
import service_edits
import service_exports
import service_openings
import service_publications
import service_random
import service_versions
import words
from service_stand import Trial

CRATE, PART = "service_runs", "service"
BLOCKS = [*service_edits.BLOCKS, *service_batches.BLOCKS, *service_publications.BLOCKS, *service_openings.BLOCKS, *service_versions.BLOCKS]
BLOCKS += [*service_exports.BLOCKS, *service_damage.BLOCKS, *service_random.BLOCKS, *service_drafts.BLOCKS]


def lines():
    yield "# A map on a disk, as a service. Written by model/service_script.py, with the answers."
    for block in BLOCKS:
        yield from block()


def files():
    return words.files(lines(), Trial().answer)
