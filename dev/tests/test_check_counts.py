"""What the counts don't count is found."""
import shutil
import tempfile
import unittest
from pathlib import Path

from tests import stored

check_counts = stored.tool("check_counts")
CRATES = stored.TOOLS.parent / "crates"


class Spoilt(unittest.TestCase):
    def setUp(self):
        self.root = Path(self.enterContext(tempfile.TemporaryDirectory()))
        shutil.copy(CRATES.parent / "crates.txt", self.root)
        for crate in check_counts.crates_below(CRATES.parent, "pim_router"):
            shutil.copytree(CRATES / crate / "src", self.root / "crates" / crate / "src")

    def spoil(self, name, old, new, folder="crates"):
        path = self.root / folder / name
        text = path.read_text()
        self.assertEqual(text.count(old), 1, f"{old} in {name}")
        path.write_text(text.replace(old, new))

    def refused(self, *reasons):
        said = list(check_counts.errors(self.root))
        self.assertEqual(len(said), len(reasons), said)
        for line, reason in zip(said, reasons):
            self.assertIn(reason, line)

    def test_the_tree_as_it_is(self):
        self.refused()

    def test_a_crate_on_an_events_road_that_lists_the_meter(self):
        self.spoil("crates.txt", "pim_mfc: ", "pim_mfc: pim_meter ", "")
        self.refused("pim_mfc lists pim_meter")

    def test_a_router_that_lists_no_meter(self):
        self.spoil("crates.txt", " pim_tables pim_meter law_streams", " pim_tables law_streams", "")
        self.refused("pim_router lists no pim_meter")

    def test_a_meter_that_can_be_cloned(self):
        self.spoil("pim_meter/src/meter.rt", "pub struct Meter {", "#[derive(Clone, Drop)]\npub struct Meter {")
        self.refused("Meter derives Clone, Drop")

    def test_a_meter_that_is_dropped_by_hand(self):
        self.spoil(
            "pim_meter/src/meter.rt",
            "impl Auditor {\n",
            "impl Drop for Meter {\n    fn drop(self) {\n        let Meter { count: _ } = self;\n    }\n}\n\n"
            "impl Auditor {\n",
        )
        self.refused("Meter is Drop")

    def test_a_further_type_of_meter(self):
        self.spoil("pim_meter/src/meter.rt", "impl Auditor {\n",
            "/// Two counts.\npub struct Twice {\n    count: u64,\n}\n\nimpl Auditor {\n")
        self.refused("Twice derives nothing")

    def test_a_further_way_to_make_a_meter(self):
        self.spoil(
            "pim_meter/src/meter.rt",
            "    /// The nodes visited.\n",
            "    pub fn another() -> Self {\n        Self { count: 0 }\n    }\n\n    /// The nodes visited.\n",
        )
        self.refused("a meter is made in Meter::another")

    def test_a_meter_that_can_be_set_back(self):
        self.spoil(
            "pim_meter/src/meter.rt",
            "    /// The nodes visited.\n",
            "    pub fn restart(&mut self) {\n        self.count = 0;\n    }\n\n    /// The nodes visited.\n",
        )
        self.refused("a meter changes in Meter::restart")

    def test_a_trie_that_opens_an_auditor(self):
        self.spoil("pim_trie/src/trie.rt", "use pim_meter::Meter;", "use pim_meter::{Auditor, Meter};")
        self.refused("an auditor is brought in")

    def test_a_trie_that_passes_all_on(self):
        self.spoil("pim_trie/src/lib.rt", "pub use pim_meter::Meter;", "pub use pim_meter::*;")
        self.refused("an auditor is brought in")

    def test_a_meter_that_is_set_back_at_the_end(self):
        self.spoil(
            "pim_router/src/router.rt",
            "        hand_over(outcome.emissions.into_vec(), emissions)?;\n",
            "        hand_over(outcome.emissions.into_vec(), emissions)?;\n        self.probes.begin();\n",
        )
        self.refused("a count begins anew in Router::take_lent", "Router::take_lent calls")

    def test_an_event_with_a_meter_of_its_own(self):
        self.spoil(
            "pim_router/src/router.rt",
            "        let outcome = take_next(&mut self.core, event, &mut self.probes.meter)?;\n",
            "        let mut outside = self.probes.outside();\n"
            "        let outcome = take_next(&mut self.core, event, &mut outside.meter)?;\n",
        )
        self.refused("a meter is made beside that of events in Router::take_lent", "Router::take_lent calls")

    def test_an_event_with_an_auditor_of_its_own(self):
        self.spoil(
            "pim_router/src/router.rt",
            "    take_in(core, event, meter)\n",
            "    take_in(core, event, &mut Probes::new().meter)\n",
        )
        self.refused("a meter is made beside that of events in take_next", "take_next calls")

    def test_a_row_evaluated_with_a_count_that_is_thrown_away(self):
        self.spoil(
            "pim_fanout/src/cache.rt",
            "        let made = world.row(",
            "        world.row(name, None, meter, &mut Evaluations::none());\n        let made = world.row(",
        )
        self.refused("a count of rows is made in Cache::refresh_one")

    def test_rows_evaluated_in_another_cache(self):
        self.spoil(
            "pim_event/src/event.rt",
            "    core.cache.refresh(\n",
            "    Cache::new(turn.alloc).refresh(&core.world, meter, names.try_clone()?, Touched::All, &last)?;\n"
            "    core.cache.refresh(\n",
        )
        self.refused("a count of rows is made in change_and_refresh")

    def test_a_count_of_rows_under_another_name(self):
        self.spoil("pim_fanout/src/naming.rt", "use pim_macros::",
            "use pim_macros::Evaluations as Count;\nuse pim_macros::")
        self.refused("a count has another name")

    def test_a_row_evaluated_when_asked(self):
        self.spoil(
            "pim_router/src/router.rt",
            "        self.core\n"
            "            .cache\n"
            "            .mfc()\n"
            "            .cached(SourceGroup { source, group }, &mut outside.meter)\n",
            "        let mut count = Evaluations::none();\n"
            "        let name = SourceGroup { source, group };\n"
            "        let made = pim_macros::row(&self.core.world, name, &mut outside.meter, &mut count);\n"
            "        Some(CacheRow::of(&made.answers()))\n",
        )
        self.refused(
            "a count of rows is made in Router::cached",
            "Router::cached calls outside none row Some of answers",
        )

    def test_an_event_that_asks_what_a_plane_does(self):
        self.spoil(
            "pim_router/src/router.rt",
            "        let outcome = take_next(",
            "        let name = SourceGroup { source: Addr::NONE, group: Addr::NONE };\n"
            "        offer(&self.core.world, &self.core.cache, name, &mut self.probes.meter);\n"
            "        let outcome = take_next(",
        )
        self.refused("a row is offered in Router::take_lent", "Router::take_lent calls")

    def test_an_event_that_saves_the_whole_state(self):
        self.spoil(
            "pim_router/src/router.rt",
            "        let outcome = take_next(",
            "        let mut bytes = Vec::new(self.core.room.alloc);\n"
            "        let _ = self.save(&mut bytes);\n"
            "        let outcome = take_next(",
        )
        self.refused("an event asks for what a user asks for", "Router::take_lent calls")

    def test_a_packet_before_which_all_rows_are_read(self):
        self.spoil(
            "pim_event/src/event.rt",
            "    match hear(",
            "    for (_, _) in core.world.store().downstream_rows() {}\n    match hear(",
        )
        self.refused("hear_packet calls mfc for store downstream_rows hear")

    def test_a_call_of_a_trait_that_reads_all_rows(self):
        self.spoil(
            "pim_intake/src/plain.rt",
            "        World::interfaces(self)\n",
            "        for (_, _) in self.store().downstream_rows() {}\n        World::interfaces(self)\n",
        )
        self.refused("World::interfaces calls for store downstream_rows interfaces")

    def test_a_test_of_a_unicast_that_reads_all_rows(self):
        self.spoil(
            "pim_intake/src/unicast.rt",
            "    judge_packet(world, packet, meter)\n",
            "    for (_, _) in world.store().downstream_rows() {}\n    judge_packet(world, packet, meter)\n",
        )
        self.refused("a test of an event reads")

    def test_a_row_beside_which_the_lists_of_all_sources_are_evaluated(self):
        self.spoil(
            "pim_fanout/src/evaluates.rt",
            "        let sight = sight_of(",
            "        for (key, _) in self.store().source_rows() "
            "{\n            let _ = SourceSight::with_star(self, key.name(), meter).inherited_olist();\n        }\n"
            "        let sight = sight_of(",
        )
        self.refused("World::row calls for store source_rows")

    def test_a_place_that_is_gone(self):
        self.spoil("pim_router/src/router.rt", "    core.cache.reset();\n", "")
        self.refused("a count begins anew in take_next 0 times, and not 1", "take_next calls")


if __name__ == "__main__":
    unittest.main()
