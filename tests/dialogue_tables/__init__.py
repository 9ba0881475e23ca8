"""Tables of dialogues, which are played over a run and to servers."""
from dialogue_tables import branches, frames, limits, lines, loads, mixed_faults, mixed_lines, mixtures, refusals
from dialogue_tables import side_by_side, sizes, words_of_numbers, worked

TABLES = {
    "worked dialogues": worked.DIALOGUES,
    "refusals": refusals.DIALOGUES,
    "loads": loads.DIALOGUES,
    "limits": limits.DIALOGUES,
    "sizes": sizes.DIALOGUES,
    "lines": lines.DIALOGUES,
    "branches and quotas": branches.DIALOGUES,
    "frames of text": frames.DIALOGUES,
    "words of numbers": words_of_numbers.DIALOGUES,
    "mixtures": mixtures.DIALOGUES,
    "faults of mixtures": mixed_faults.DIALOGUES,
    "lines of mixtures": mixed_lines.DIALOGUES,
    "sessions side by side": side_by_side.DIALOGUES,
}

# Streams that are not read to their end, which no server is played.
NOT_READ_ON = limits.NOT_READ_ON
