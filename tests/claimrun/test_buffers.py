"""Input and output around the ends of claimrun's buffers, and over many reads."""
import unittest

import common
from common import INPUT_BUFFER, OUTPUT_BUFFER, RECORD_ROOM

FILL_POINTS = ("fill-points-below", "fill-points-at", "fill-points-above")
LAST_ROOM = OUTPUT_BUFFER - RECORD_ROOM         # where the output is so full that a record is just worked


class FullOutput(common.Claimrun):
    """One read whose claims fill the output several times: 1,680 loans and repos, and 16 closes."""

    @classmethod
    def setUpClass(cls):
        super().setUpClass()
        cls.stream = common.stored("full-output")

    def test_the_claims_of_one_read_fill_the_output_several_times(self):
        loans, closes = self.stream.pieces()
        self.assertEqual((len(loans) // 141, len(closes) // 4), (1680, 16))
        self.assertGreater(len(self.stream.expected) - self.stream.due(len(loans)), 3 * OUTPUT_BUFFER)

    def test_closes_in_one_read(self):
        self.run_pieces(self.stream, self.stream.pieces())

    def test_from_a_file(self):
        self.run_file(self.stream)

    def test_cut_near_each_close(self):
        """Two reads share the closes, cut at every place."""
        loans, closes = self.stream.pieces()
        for size in range(1, len(closes)):
            self.run_pieces(self.stream, self.stream.pieces([len(loans), len(loans) + size]))


class FillPoints(common.Claimrun):
    """Reads whose records leave just room for another in the output, or some bytes more or less."""

    def test_every_place_around_the_last_room(self):
        found = set()
        for name in FILL_POINTS:
            stream = common.stored(name)
            for cut in stream.cuts:
                found |= {end - stream.due(cut) - LAST_ROOM for end in stream.ends}
        self.assertLessEqual(set(range(-6, 7)), found)

    def test_each_fill_point_in_a_read_of_its_own(self):
        for name in FILL_POINTS:
            with self.subTest(name=name):
                stream = common.stored(name)
                self.run_pieces(stream, stream.pieces())

    def test_from_a_file(self):
        for name in FILL_POINTS:
            with self.subTest(name=name):
                self.run_file(common.stored(name))


class BufferEnds(common.Claimrun):
    """Records cut by the end of the input buffer."""

    @classmethod
    def setUpClass(cls):
        super().setUpClass()
        cls.stream = common.stored("buffer-ends")
        cls.first = cls.stream.until(1200)

    def left_over(self):
        """What the end of each full buffer leaves over, as the size of the record that is cut and how much of it is there."""
        place, found = 0, set()
        while place + INPUT_BUFFER < len(self.stream.data):
            end = place + INPUT_BUFFER
            place = max(start for start in self.stream.starts if start <= end)
            cut = next((start for start in self.stream.starts if start > end), len(self.stream.data))
            found.add((cut - place, end - place))
        return found

    def test_the_buffers_end_near_the_ends_of_records(self):
        self.assertLessEqual({(141, left) for left in (0, 1, 2, 3, 4, 5, 139, 140)} | {(4, 1), (4, 2), (4, 3)}, self.left_over())

    def test_reads_that_fill_the_buffer(self):
        self.run_file(self.stream)

    def test_first_piece_around_the_buffers_end(self):
        for size in range(INPUT_BUFFER - 6, INPUT_BUFFER + 7):
            with self.subTest(size=size):
                data = self.first.data
                self.run_pieces(self.first, [data[size:]], ready=data[:size])

    def test_second_piece_around_the_buffers_end(self):
        """What the first piece leaves over and the second piece fill the buffer, or a little less or more than it."""
        left = self.first.starts[1] + 3
        for size in range(INPUT_BUFFER - 6, INPUT_BUFFER + 7):
            with self.subTest(size=size):
                self.run_pieces(self.first, self.first.pieces([left, self.first.starts[1] + size]))


class ManyReads(common.Claimrun):
    """Transfers, loans, repos and closes in very many pieces, each read before the next is there."""

    @classmethod
    def setUpClass(cls):
        super().setUpClass()
        cls.stream = common.stored("many-reads")

    def test_more_than_a_thousand_reads(self):
        self.assertGreater(len(self.stream.cuts), 1000)
        self.run_pieces(self.stream, self.stream.pieces())

    def test_one_byte_at_a_time(self):
        start = self.stream.until(20)
        self.run_pieces(start, start.pieces(range(1, len(start.data))))


if __name__ == "__main__":
    unittest.main()
