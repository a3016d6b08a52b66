"""Twenty tests of a sprayer's masks: what its operator does, and what he sees of it. Each says what would be wrong without it."""
import pytest

from segyolant import events
from segyolant.bench import Refused, expect, never
from segyolant.sprayer import Sprayer


def test_the_work_mask_comes_up_after_the_upload(bench):
    """The pool is accepted, its first mask is shown, and no command of the sprayer was refused on the way."""
    assert bench.mask == 'mask_work'
    assert bench.time < 3
    assert [type(event) for _, event in bench.events].count(events.PoolAccepted) == 1
    bench.wait(2)
    assert bench.implement.refused == []


def test_on_brings_the_rate_to_its_target(bench):
    """The key reaches the sprayer, and the rate comes near the target and stays there."""
    bench.press('key_on')
    expect(bench.value('value_Rate') > 190, within=8)
    never(bench.value('value_Rate') > 200, during=10)


def test_on_once_more_ends_spraying(bench):
    """The key switches, and is not on alone."""
    bench.press('key_on')
    expect(bench.value('value_Rate') > 100, within=5)
    bench.press('key_on')
    expect(bench.value('value_Rate') < 1, within=15)


def test_start_and_stop_are_one_button(bench):
    """The button in the mask does what the key does, and its text says what the next press does."""
    bench.press('button_start')
    expect(bench.value('button_text') == 'STOP ', within=1)
    bench.press('button_start')
    expect(bench.value('button_text') == 'START', within=1)


def test_a_key_is_heard_as_held_and_as_released(bench):
    """The sprayer hears both ends of a press, as a valve that is open while a key is held needs them."""
    bench.hold('key_on')
    expect(bench.heard('key', 'key_on', True), within=0.1)
    assert not bench.heard('key', 'key_on', False)
    bench.wait(1)
    bench.release('key_on')
    expect(bench.heard('key', 'key_on', False), within=0.1)


def test_a_new_target_is_taken(bench):
    """The number that the operator sees is the one that the sprayer sprays."""
    bench.enter('in_rate', '250')
    expect(bench.heard('number', 'in_rate', 250), within=0.1)
    bench.press('key_on')
    expect(bench.value('value_Rate') > 240, within=10)


def test_a_target_out_of_range_is_refused(bench):
    """600 is above the maximum of 500: nothing is sent, and the old target stays."""
    with pytest.raises(Refused, match='3 Range'):
        bench.enter('in_rate', '600')
    never(bench.heard('number', 'in_rate'), during=1)
    assert bench.value('in_rate') == '200'


def test_the_greatest_target_is_taken(bench):
    """The limit itself is still in the range."""
    bench.enter('in_rate', '500')
    expect(bench.heard('number', 'in_rate', 500), within=0.1)


def test_headland_halves_the_rate(bench):
    """The item of the list that is chosen by its text is the one that the sprayer takes."""
    bench.press('key_on')
    expect(bench.value('value_Rate') > 190, within=8)
    bench.enter('in_list', 'Headland')
    expect(bench.screen.contains('"Headland"'))
    expect(bench.value('value_Rate') < 105, within=8)


def test_without_auto_the_rate_stays(bench):
    """The operator takes the boom in his own hand: a new target changes nothing until he gives it back."""
    bench.press('key_on')
    expect(bench.value('value_Rate') > 190, within=8)
    bench.enter('in_bool', False)
    bench.enter('in_rate', '400')
    never(bench.value('value_Rate') > 205, during=5)
    bench.enter('in_bool', True)
    expect(bench.value('value_Rate') > 300, within=5)


def test_the_name_of_the_field_is_shown_in_the_header(bench):
    """A text longer than a frame goes to the sprayer in packets, and the header shows it."""
    bench.enter('in_field', 'South field 7')
    expect(bench.heard('text', 'in_field', b'South field 7'), within=1)
    assert bench.screen.line('field').endswith('"South field 7   "')


def test_a_name_that_is_too_long_is_refused(bench):
    """The header has room for sixteen characters."""
    with pytest.raises(Refused, match='4 TooLong'):
        bench.enter('in_field', 'A field with a long name')


def test_folding_shows_its_mask_and_comes_back(bench):
    """The macro of the key shows the mask at once; the sprayer shows the work mask again when the boom has moved."""
    bench.press('key_fold', hold=0)
    assert bench.mask == 'mask_fold'
    expect(bench.mask == 'mask_work', within=6)
    assert ~bench.screen.shows('sections')
    expect(bench.screen.contains('Boom folded in'))


def test_unfolding_shows_the_sections_again(bench):
    """What a macro of the pool hid, the sprayer shows."""
    for _ in range(2):
        bench.press('key_fold')
        expect(bench.mask == 'mask_work', within=6)
    expect(bench.screen.shows('sections') & bench.screen.contains('Boom folded out'))


def test_nothing_is_sprayed_while_the_boom_is_folded(bench):
    """Folding ends spraying, and ON does nothing but sound until the boom is out again."""
    bench.press('key_on')
    expect(bench.value('value_Rate') > 100, within=5)
    bench.press('key_fold')
    expect(bench.mask == 'mask_work', within=6)
    bench.press('key_on')
    never(bench.heard('key', 'key_fold', True) & (bench.value('value_Rate') > 150), during=5)
    assert any(isinstance(event, events.Signal) and event.times == 3 for _, event in bench.events)


def test_the_folding_mask_has_no_keys(bench):
    """A key that is not shown cannot be pressed, however the operator gets there."""
    bench.press('key_fold', hold=0)
    with pytest.raises(Refused, match='1 NotShown'):
        bench.press('key_on')


def test_an_empty_tank_is_an_alarm(bench):
    """After some minutes of spraying the alarm comes in time: there is something left in the tank."""
    bench.press('key_on')
    expect(bench.alarm == 'mask_alarm', within=600)
    assert bench.time > 200
    assert 90 < float(bench.value('alarm_tank').now) <= 100
    assert [event.priority for _, event in bench.events if isinstance(event, events.Alarm)] == [1]


@pytest.mark.parametrize('implement', [Sprayer(tank=102)], ids=['a tank that is nearly low'])
def test_the_alarm_goes_with_ok_and_does_not_come_back(bench):
    """The operator has seen it: he is not disturbed again until the tank was filled."""
    bench.press('key_on')
    expect(bench.alarm == 'mask_alarm', within=30)
    bench.press('key_ok')
    expect(bench.mask == 'mask_work', within=1)
    never(bench.alarm == 'mask_alarm', during=30)


@pytest.mark.parametrize('implement', [Sprayer(tank=1)], ids=['a tank that is nearly empty'])
def test_an_empty_tank_ends_spraying_until_it_is_filled(bench):
    """No pump runs dry, and a filled tank sprays again."""
    expect(bench.alarm == 'mask_alarm', within=2)
    bench.press('key_ok')
    bench.press('key_on')
    expect(bench.value('tank_value') == '0', within=30)
    expect(bench.value('button_text') == 'START', within=2)
    bench.implement._leave_alarm(is_filled=True)
    expect(bench.value('tank_value') > 900, within=2)


def test_a_sprayer_that_falls_silent_is_gone_from_the_screen(bench):
    """Three seconds after its last frame its masks are gone: no operator steers by values that nobody sends any more."""
    bench.implement.stop()
    never(bench.screen.contains('screen none'), during=1.5)
    expect(bench.screen.contains('screen none'), within=3)
    assert isinstance(bench.events[-2][1], events.SetSilent)
