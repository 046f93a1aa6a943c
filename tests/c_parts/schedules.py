"""Some of the schedules of a world, with the notes and the exit status of process 1 in each."""
import os
import random
import re
import subprocess

from c_program import outcome

SEED, MOST_PLACES, OF_TWO_TICKS, MORE = 1, 120, 40, 4000


def write(folder, world, events):
    """Writes a world and its events to a folder, and returns their paths."""
    paths = [os.path.join(folder, name) for name in ('world', 'events')]
    for path, text in zip(paths, (world, '\n'.join(events) + '\n')):
        with open(path, 'w', encoding='utf-8') as file:
            file.write(text)
    return paths


def run(program, folder, world, events):
    """Runs a world, and returns its trace."""
    done = subprocess.run([program, 'run', *write(folder, world, events)], capture_output=True, text=True)
    return done.stdout + done.stderr


def outcome_of(trace):
    """Returns the notes and the exit status of process 1, in the form of c_program's `outcome`."""
    end = re.search(r'^\d+ end 1 (\d+)$', trace, re.M)
    notes = '\n'.join(re.findall(r'note \d+ -?\d+$', trace, re.M))
    return outcome(notes, int(end[1]) // 256 if end else None)


def with_events(events, put_in):
    """Returns events with others inserted. Each pair is the number of an event, and the event to insert before it."""
    made, number, left = [], 1, list(put_in)
    for event in events:
        word, *rest = event.split()
        count = int(rest[0]) if word in ('step', 'tick') else max(len(rest) - 1, 1)      # a hangup is one event
        while left and left[0][0] < number + count:
            place, other = left.pop(0)
            before = place - number if word == 'step' else 0
            if before > 0:
                made.append(f'step {before}')
                number, count = number + before, count - before
            made.append(other)
        if word in ('step', 'tick'):
            made += [f'{word} {count}'] if count > 0 else []
        else:
            made.append(event)
        number += count
    return made


def places_of(trace):
    """Returns the numbers of the events that add lines to a trace, and of the seven events before each."""
    return sorted({max(1, int(event) - back) for event in re.findall(r'^\d+', trace, re.M) for back in range(8)})


def outcomes(program, folder, world, events, wanted):
    """Returns outcomes of a world: without a tick, with a tick at each place or at MOST_PLACES of them, and with two
    ticks at some. If an outcome in `wanted` is missing, tries up to five ticks at random places."""
    places = places_of(run(program, folder, world, events))
    chance = random.Random(SEED)

    def outcome_with(ticks):
        put_in = [(place, 'tick 1') for place in sorted(ticks)]
        return outcome_of(run(program, folder, world, with_events(events, put_in)))
    one = places if len(places) <= MOST_PLACES else chance.sample(places, MOST_PLACES)
    found = {outcome_with([])} | {outcome_with([place]) for place in one}
    for count in range(MORE):
        if count >= OF_TWO_TICKS and wanted <= found:
            break
        ticks = 2 if count < OF_TWO_TICKS else chance.randrange(2, 6)
        found.add(outcome_with([chance.choice(places) for _ in range(ticks)] if places else []))
    return found
