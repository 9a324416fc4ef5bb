"""What is made of the prover's answers. Those in answers/ were printed at edits of the repository and at weak or broken ones of its
crates, with rattle-kit-13f; what says nothing to .ci/must_fail/said.py is left out, and long lines are cut. A few are written by hand
below, where no edit at hand gave them."""

import unittest
from pathlib import Path

import small  # noqa: F401
from must_fail import said
from must_fail.edit import Edit
from must_fail.trying import reason_at, tried

ANSWERS = Path(__file__).parent / 'answers'
NO_GOAL = './proofs/a/f_1/Answers.antt:8:18: error: `of-no-goal`: module `Rattle.kr_a.proofs.a.f_1.Goals` has no `of-no-goal` that can be named'


def lines_of(name):
    return (ANSWERS / f'{name}.txt').read_text().rstrip('\n').split('\n')


class Prover:
    """A crate whose checks print these answers, one after the other: of each the lines and the status."""

    def __init__(self, name, *answers):
        self.name, self.answers, self.only = name, list(answers), []

    def check(self, _, only):
        self.only.append(only)
        lines, status = self.answers.pop(0)
        return lines, status, []

    def seconds_of(self, _):
        return ' in 1 s'


def edit_at(place, twin=1, searches=False, goal=None, gone=()):
    """An edit of a function, as it is being tried."""
    it = Edit.__new__(Edit)
    it.name, it.at, it.functions, it.twin, it.searches, it.goal, it.gone, it.left = place, None, {place}, twin, searches, goal, {*gone}, []
    it.has_copy = lambda: twin > 0
    return it


def reason(crate, edit, lines, stubs=()):
    return reason_at(Prover(crate), edit, lines, stubs)


class Refused(unittest.TestCase):
    def test_by_an_answer(self):
        found = reason('kr_sink', edit_at('sink::print'), lines_of('four-at-once'))
        answer = '`Rattle.kr_sink.proofs.sink.print_1.Answers.returns-in_err-put_all-2-clause-err`'
        self.assertEqual(found, f'not proved; it stands on {answer}, which antt refuses')

    def test_by_several_answers(self):
        found = reason('kr_sink', edit_at('sink::put_all'), lines_of('four-at-once'))
        self.assertIn('Answers.loop-done-preserved`, `Rattle.kr_sink.proofs.sink.put_all_1.Answers.returns-in-Ok-eq0-clause-err`, which', found)

    def test_by_an_answer_of_one_that_calls_what_was_taken_by_its_contract(self):
        stubs = ['kr_modes::modes::Modes::count', 'kr_modes::modes::Modes::name']
        found = reason('kr_modes', edit_at('Modes::find'), lines_of('calls'), stubs)
        self.assertIn('proofs.modes.Modes.find_1.Answers.returns-clause-none`, which antt refuses', found)

    def test_by_a_search(self):
        edit = edit_at('IoSink::put', twin=0, searches=True)
        found = reason('kr_sink', edit, lines_of('four-at-once'))
        self.assertEqual(found, 'no proof: `search` did not prove `returns-in-Ok-clause-failures`')
        self.assertEqual(edit.left, ['returns-in-Ok-clause-failures'])

    def test_at_the_goal_that_it_names(self):
        self.assertTrue(said.fails_at_goal('Io::new_1', 'returns', lines_of('four-at-once')))
        self.assertFalse(said.fails_at_goal('Io::new_1', 'other', lines_of('four-at-once')))
        self.assertFalse(said.fails_at_goal('sink::print_1', 'returns-in_err-put_all-2-clause-err', lines_of('four-at-once')), 'of another kind')

    def test_by_what_a_lemma_computes(self):
        edit = edit_at('kvl::KvlProtocol::ok', twin=0, searches=True)
        self.assertEqual(reason('kr_protocol', edit, lines_of('lemma')), 'it stands on Rattle.kr_protocol.proofs.KvlTables.kvl_compatible')

    def test_alone(self):
        lines = ['fn kr_a::a::g: not proved; it calls `kr_a::a::f`, which is not proved', 'fn kr_a::a::f: no proof: it is expected', said.NOT_PROVED]
        self.assertEqual(said.of_whole_crate('kr_a', lines, 1), (True, 'refused, alone, at a::f'))


class TriedAgain(unittest.TestCase):
    def assert_again(self, edit, found, gone=()):
        self.assertEqual((found, edit.searches, edit.goal), (said.AGAIN, True, None))
        self.assertEqual(edit.gone, {*gone})

    def test_where_no_answer_is_refused(self):
        edit = edit_at('IoSink::put', twin=0)
        self.assert_again(edit, reason('kr_sink', edit, lines_of('four-at-once')))

    def test_where_an_answer_is_to_a_goal_that_is_gone(self):
        edit = edit_at('sink::print')
        self.assert_again(edit, reason('kr_sink', edit, lines_of('gone-goal')), ['returns-in_err-put_all-2-clause-err'])

    def test_where_answers_name_what_is_gone(self):
        edit = edit_at('take_out')
        lost = ['returns-in-Some-clause-found', 'returns-in-Some-clause-rest']
        self.assert_again(edit, reason('kr_txn', edit, lines_of('lost-name')), lost)
        edit = edit_at('take_out', gone=lost)
        self.assertIn('Answers.returns-in-Some-clause-found`', reason('kr_txn', edit, lines_of('lost-name')), 'it was to be taken away')

    def test_where_all_answers_are_to_goals_that_are_gone(self):
        edit = edit_at('Ended::has')
        self.assert_again(edit, reason('kr_txn', edit, lines_of('lost-name')), ['returns-else-is_in', 'returns-then-is_in'])

    def test_where_a_goal_is_gone_and_a_search_finds_one_that_fails(self):
        edit = edit_at('sink::print', searches=True)
        self.assertEqual(reason('kr_sink', edit, lines_of('gone-goal')), 'no proof: `search` did not prove `returns-clause-ok`')

    def test_where_the_goal_that_it_names_has_clauses(self):
        lines = ['./proofs/a/f_1/Answers.antt:6:1: error: `returns`: `search`: no proof', 'fn kr_a::a::f_1: not proved']
        self.assertTrue(said.fails_at_goal('a::f_1', 'returns', lines))
        self.assertFalse(said.fails_at_goal('a::f_1', 'returns', [*lines, 'help: `returns` asks a record with a field for each clause']))

    def test_where_it_only_calls_one_that_is_refused(self):
        line = 'fn kr_a::a::f_1: not proved; it calls `kr_a::a::g`, which is not proved'
        edit = edit_at('a::f')
        self.assertEqual(reason('kr_a', edit, [NO_GOAL, line]), said.AGAIN)
        self.assertEqual(said.reason_of('kr_a', 'a::f_1', [line], []), said.AGAIN)
        self.assertEqual(said.reason_of('kr_a', 'a::f_1', [line], ['kr_a::a::g']), line.partition(': ')[2], 'g was taken by its contract')

    def test_where_it_stands_on_another_function_that_is_refused(self):
        line = 'fn kr_a::a::f_1: not proved; it stands on `Rattle.kr_a.proofs.a.g.Answers.ok`, which antt refuses; it calls `kr_a::a::g`, which is not proved'
        self.assertEqual(said.reason_of('kr_a', 'a::f_1', [line], []), said.AGAIN)


class LetThrough(unittest.TestCase):
    def test_a_function_of_which_only_the_answer_to_no_goal_is_refused(self):
        edit = edit_at('Io::new', searches=True)
        self.assertIsNone(reason('kr_sink', edit, lines_of('let-through')))

    def test_a_function_that_is_proved(self):
        for line in 'proved', 'proved, may wait', 'no holes', 'depends on a hole in `x`':
            self.assertIsNone(said.reason_of('kr_a', 'a::f', [f'fn kr_a::a::f: {line}'], []), line)
        self.assertIsNone(said.reason_of('kr_a', 'a::f', ['fn kr_a::b::f: not proved'], []), 'nothing is said of it')

    def test_not_refused(self):
        found = said.of_whole_crate('kr_sink', lines_of('let-through-whole'), 0)
        self.assertEqual(found, (False, 'NOT REFUSED: the crate is still proved with this edit'))


class BadEdits(unittest.TestCase):
    def test_that_cannot_be_read(self):
        is_refused, text = said.of_whole_crate('kr_sink', lines_of('unreadable'), 1)
        self.assertEqual((is_refused, text[:43]), (False, 'BAD EDIT: it did not reach the prover: src/'))

    def test_that_the_types_do_not_admit(self):
        is_refused, text = said.of_whole_crate('kr_sink', lines_of('mismatched'), 1)
        self.assertEqual((is_refused, text[:43]), (False, 'BAD EDIT: it did not reach the prover: src/'))

    def test_that_an_earlier_kit_could_not_read(self):
        lines = ['src/a.rt:1:2: error: expected an expression']
        self.assertEqual(said.of_whole_crate('kr_a', lines, 1), (False, f'BAD EDIT: the prover cannot read it: {lines[0]}'))
        self.assertIsNone(said.unreadable(['src/a.rt:1:2: error: `returns`: a false statement reads well']))

    def test_of_a_body_that_is_not_covered(self):
        lines = lines_of('uncovered')
        self.assertIsNone(said.reason_of('kr_sink', 'sink::print', lines, []))
        found = (False, 'BAD EDIT: the prover does not cover this function: kr_sink::sink::print')
        self.assertEqual(said.of_whole_crate('kr_sink', lines, 1), found)


class Checks(unittest.TestCase):
    """Several checks, one after the other."""

    def outcomes(self, crate, *edits):
        return [(it.is_refused, it.text) for it in tried(crate, list(edits))], len(crate.only)

    def test_four_in_one_check(self):
        edits = [edit_at(it) for it in ('sink::print', 'sink::put_all')]
        new, put = edit_at('Io::new', goal='returns'), edit_at('IoSink::put', twin=0, searches=True)
        found, checks = self.outcomes(Prover('kr_sink', (lines_of('four-at-once'), 1)), *edits, new, put)
        self.assertEqual(checks, 1)
        self.assertEqual([is_refused for is_refused, _ in found], [True] * 4)
        self.assertEqual(found[2][1], 'refused at Io::new in 1 s: no proof of `returns`')

    def test_again_by_a_search(self):
        again, by_search = [NO_GOAL, 'fn kr_a::a::f_1: not proved'], ['note: src/a.rt:1:1: it is not proved that x (`ok`)', 'fn kr_a::a::f_1: not proved']
        found, checks = self.outcomes(Prover('kr_a', (again, 1), (by_search, 1)), edit_at('a::f'))
        self.assertEqual((found, checks), ([(True, 'refused at a::f in 1 s: no proof: `search` did not prove `ok`')], 2))

    def test_alone_where_its_function_says_nothing(self):
        nothing = ([NO_GOAL, 'fn kr_a::a::f_1: not proved'], 1)
        crate = Prover('kr_a', nothing, nothing, (['logic=proved'], 0))
        found, _ = self.outcomes(crate, edit_at('a::f'))
        self.assertEqual(found, [(False, 'NOT REFUSED: the crate is still proved with this edit')])
        self.assertEqual(crate.only[-1], [], 'the last check was of the whole crate')

    def test_one_that_cannot_be_read_spoils_no_other(self):
        unreadable, refused = (lines_of('unreadable'), 1), (lines_of('four-at-once'), 1)
        crate = Prover('kr_sink', unreadable, unreadable, unreadable, refused, unreadable)
        found, _ = self.outcomes(crate, edit_at('sink::other'), edit_at('sink::print', searches=False))
        self.assertEqual([is_refused for is_refused, _ in found], [False, True])


if __name__ == '__main__':
    unittest.main()
