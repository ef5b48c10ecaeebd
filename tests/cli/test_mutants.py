"""Tests that must-fail/ has the mutants that each run of `./check` has to try, and first."""
import re
import unittest

from build import ROOT

# Those of one line are different bodies of one mistake.
TRIED = {
    "sixel_base": """
        hls_rounded_down
        pixel_limit_above_maximum
        encode_area_limit_halved
    """,
    "sixel_canvas": """
        earlier_run_wins
        row_grows_to_exact_size
    """,
    "sixel_palette": """
        least_colors_as_palette black_palette
        error_zero_without_witnesses
        transparent_alpha_1_to_127_in_palette
    """,
    "sixel_encoder": """
        sixels_written_singly run_cut_at_32768
        repeat_of_three
        trailing_blanks_omitted
    """,
    "sixel_decoder": """
        chunk_end_ends_number
        background_of_final_register_0
        blank_sixel_without_extent height_cropped_to_raster
        repeat_dropped_at_color repeat_dropped_at_return repeat_kept_for_next_sixel
        area_limit_halved
        interrupting_escape_not_consumed c1_90_to_9f_consumed
        sixel_below_limit_overflows
        cropped_area_tested_at_raster
        crop_to_greatest_height
        limit_tested_at_finish
    """,
    "icy_sixel": """
        feed_defines_registers
        aborted_open_repeat_failed
        run_restores_registers
        canvas_writes_stay_zero count_of_packing_only
        reset_palette_turns_crop_off
    """,
}


class TestMutants(unittest.TestCase):
    def test_mutants_of_the_gate(self):
        for crate, names in TRIED.items():
            for name in names.split():
                with self.subTest(crate=crate, name=name):
                    self.assertTrue((ROOT / f"crates/{crate}/must-fail/{name}.edit").is_file())

    def test_order(self):
        """`./check` goes through crates.txt, and skips what it has no time for at the end."""
        names = re.findall(r"^(\w+).*:", (ROOT / "crates.txt").read_text(), re.M)
        tried = [it for it in names if any((ROOT / f"crates/{it}/must-fail").glob("*.edit"))]
        self.assertEqual(tried[:len(TRIED)], [*TRIED])
