"""The common parts of campaign tests: a campaign over texts, and the costs of its faults."""
import os
import unittest
from pathlib import Path
from tempfile import TemporaryDirectory

from musmyrtle.cluster import Cluster
from musmyrtle.cluster import Reading as ClusterReading
from musmyrtle.faults.campaign import Campaign, Means
from musmyrtle.faults.costs import Difference
from musmyrtle.faults.listing import Selection
from musmyrtle.faults.log import Log
from musmyrtle.faults.runs import OUTCOME, Folder
from musmyrtle.program import usual_program
from musmyrtle.scenario import Reading as ScenarioReading
from musmyrtle.scenario import Scenario
from musmyrtle.texts import read_text
from musmyrtle.world.world_program import usual_world

PROGRAM = os.environ.get(OUTCOME[0].upper()) or usual_program(OUTCOME[0]) or OUTCOME[0]


def cluster_of(text: str) -> Cluster:
    cluster = ClusterReading(read_text("cluster.toml", text.encode()).document).cluster
    assert cluster is not None
    return cluster


def scenario_of(text: str) -> Scenario:
    return ScenarioReading("scenario", text.encode()).scenario


class CampaignCases(unittest.TestCase):
    def setUp(self):
        folder = TemporaryDirectory()
        self.addCleanup(folder.cleanup)
        self.folder = Path(folder.name)

    def campaign(self, cluster: str, scenario: str, cycles: int, program: str = PROGRAM) -> Campaign:
        files = Folder(self.folder, cluster.encode(), scenario.encode(), cycles)
        return Campaign(cluster_of(cluster), scenario_of(scenario), files, Means(program, usual_world(), 4))

    def found(self, campaign: Campaign, selection: Selection = Selection()) -> dict[str, list[Difference]]:
        faults = campaign.listing(selection).faults()
        done = campaign.run(faults, Log(None, (), False), lambda done, of: None)
        self.assertEqual([str(fault) for fault, _ in done], [str(it) for it in faults])
        return {str(fault): found for fault, found in done}

    def told(self, found: list[Difference]) -> list[tuple]:
        return [(it.node, it.thing, it.effect, it.amount) for it in found]
