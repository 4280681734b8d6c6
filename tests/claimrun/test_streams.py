"""The streams of crates/vectors through the process: whole, and in pieces that arrive apart."""
import unittest

import common

STREAMS = common.vectors()


class Streams(common.Claimrun):
    def each(self, try_one):
        """Tries each stream."""
        for number, stream in enumerate(STREAMS):
            with self.subTest(stream=number):
                try_one(stream)

    def middle(self, stream):
        """Where the record in the middle begins."""
        return stream.starts[len(stream.starts) // 2]

    def test_sixty(self):
        self.assertEqual(len(STREAMS), 60)

    def test_whole_from_a_file(self):
        self.each(self.run_file)

    def test_whole_from_a_pipe(self):
        self.each(lambda stream: self.run_pieces(stream, [], ready=stream.data))

    def test_cut_in_the_middle(self):
        self.each(lambda stream: self.run_pieces(stream, stream.pieces([len(stream.data) // 2])))

    def test_cut_where_a_record_begins(self):
        self.each(lambda stream: self.run_pieces(stream, stream.pieces([self.middle(stream)])))

    def test_first_bytes_of_a_record_alone(self):
        """One to three bytes of a record arrive in a read of their own."""
        for size in (1, 2, 3):
            self.each(lambda stream: self.run_pieces(stream, stream.pieces([self.middle(stream), self.middle(stream) + size])))


if __name__ == "__main__":
    unittest.main()
