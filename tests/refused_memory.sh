#!/usr/bin/env bash
# Plays eight rows, each as a source and as a compiled story, with each allocation of the run refused in turn. Each
# run must end in one of two ways: with status 4, the one line `i7story: out of memory` and no transcript; or
# with status 0 and the transcript in which at most one command is told as abandoned, and the rest of its line is dropped.
# Use: tests/refused_memory.sh PROGRAM
set -u
program=$(realpath "$1")
here=$(realpath "$(dirname "$0")")
scratch=$(mktemp -d)
trap 'rm -rf "$scratch"' EXIT
cc -shared -fPIC -O1 -o "$scratch/refuse.so" "$here/refuse.c" -ldl || exit 1

# Plays the row in form $2 with allocation $1 refused (0: none); leaves out, err and count, answers the status.
play() {
  file=$row/source.i7
  [ "$2" = play ] && file=$scratch/story
  REFUSE=$1 LD_PRELOAD="$scratch/refuse.so" "$program" "$2" "$file" --transcript \
    <"$row/commands" >"$scratch/out" 2>"$scratch/err" 9>"$scratch/count"
}

# The transcripts that may be written: the whole one, and those in which one turn was abandoned.
expected() {
  rm -f "$scratch"/may*
  python3 - "$row" "$scratch" <<'PY'
import pathlib
import sys
row, scratch = map(pathlib.Path, sys.argv[1:])
ABANDONED = "[The turn was abandoned: out of memory.]\n"
commands = (row / "commands").read_text().splitlines()


def asking(refused):
    """The transcript of the row of two boxes, of one of which is asked: a question of which memory is refused isn't open."""
    question = "Which do you mean, the red box or the blue box?\n"
    hall = "Hall\nYou can see a red box and a blue box here.\n"
    answers = [question, "I don't know that verb.\n" if refused == 0 else "You open the red box.\n", question, hall]
    replies = [ABANDONED if place == refused else answer for place, answer in enumerate(answers)]
    return hall + "".join(f"\n>{command}\n{reply}" for command, reply in zip(commands, replies, strict=True)) + "\n>"


def storming(refused):
    """The transcript of the row of the storm that comes again while the score is at least 1 and goes while it is at least 2."""
    score, storms, text = 0, False, "Hall\n"

    def passed():
        nonlocal storms, text
        if storms and score >= 2:
            storms, text = False, text + "Calm.\n"
        if not storms and score >= 1:
            storms, text = True, text + "Thunder.\n"

    for place, command in enumerate(commands):
        text += f"\n>{command}\n"
        if place == refused:
            text += ABANDONED
            continue
        text += "Time passes.\n"
        passed()
        score += 1
        passed()
    return text + "\n>"


def weighing(refused):
    """The transcript of the row of the ball that is weighed by words of the author's."""
    carried, text = False, "Hall\nYou can see a ball and some scales here.\n"
    for place, command in enumerate(commands):
        text += f"\n>{command}\n"
        if place == refused:
            text += ABANDONED
        elif command.startswith("weigh"):
            text += ("" if carried else "(first taking the ball)\n") + "Weighed.\n"
            carried = True
        else:
            text += "Dropped.\n" if carried else "You don't have that.\n"
            carried = False
    return text + "\n>"


def handling(refused):
    """The transcript of the row of lines of several commands, where memory is refused to a command of a line, both by place; or
    None where what is refused there asks for no memory, or isn't reached."""
    walls = "A long and bare hall, with a row of high windows on either side and a door that was walled up long ago.\n"
    things, carried, kept, told = ["ball", "lamp"], [], [], False

    def seen():
        lying = [f"a {thing}" for thing in things if thing not in carried]
        return "Hall\n" + walls + (f"You can see {' and '.join(lying)} here.\n" if lying else "")

    def done(verb, noun):
        """What a turn says; it may change what is carried."""
        if verb == "look":
            return seen()
        if verb == "i":
            held = " and ".join(f"a {thing}" for thing in things if thing in carried)
            return f"You are carrying {held or 'nothing'}.\n"
        meant = [noun] if noun != "all" else [thing for thing in things if (thing in carried) == (verb == "drop")]
        said = ""
        for thing in meant:
            said += f"{thing}: " if noun == "all" else ""
            if verb == "take" and thing in carried:
                said += "You already have that.\n"
            elif verb == "drop" and thing not in carried:
                said += "You don't have that.\n"
            else:
                (carried.append if verb == "take" else carried.remove)(thing)
                said += "Taken.\n" if verb == "take" else "Dropped.\n"
        return said

    text = seen()
    for line, typed in enumerate(commands):
        texts = []
        for place, command in enumerate(typed.replace(" then ", ". ").split(". ")):
            verb, _, noun = command.partition(" ")
            if verb == "undo":
                texts.append("Previous turn undone.\n" if kept else "You can't undo any further.\n")
                carried = kept.pop() if kept else carried
                continue
            before = list(carried)
            said = done(verb, noun)
            if not said:
                texts.append("There is nothing to do that to.\n")
                break
            if (line, place) == refused:
                carried, told = before, True
                texts.append(ABANDONED)
                break
            kept.append(before)
            texts.append(said)
        text += f"\n>{typed}\n" + "\n".join(texts)
    return text + "\n>" if told or refused is None else None


if row.name == "all_things_on_a_line":
    for refused in [None, *((line, place) for line in range(3) for place in range(4))]:
        text = handling(refused)
        if text is not None:
            (scratch / f"may{refused}").write_text(text)
    sys.exit()
if row.name == "ball_is_weighed":
    for refused in [None, 0, 1, 2, 3]:
        (scratch / f"may{refused}").write_text(weighing(refused))
    sys.exit()
if row.name == "storm_comes_again":
    for refused in [None, 0, 1, 2]:
        (scratch / f"may{refused}").write_text(storming(refused))
    sys.exit()
if row.name == "which_box_is_meant":
    for refused in [None, 0, 1, 2, 3]:
        (scratch / f"may{refused}").write_text(asking(refused))
    sys.exit()
dark = "Darkness\nIt is pitch dark, and you can't see a thing.\n"
platform = "Platform\nThe platform lies dry and still. The next train is LATE minutes late. A signal box stands to the east.\n"
box = "Box\nLevers fill the wall, and a lamp glows among them.\nYou can see a lamp and a shelf here.\n"
grotto = "Grotto\nWater drips from the roof.\nYou can see a brass lamp, a chest and some moss here.\n"
mouth = "Cave Mouth\nDaylight ends here. The cave goes on to the north.\n"
hall = "Hall\nA gate leads north, a hatch down.\n"
garden = "Garden\nRoses climb the wall. The gate is to the south.\nYou can see a rose here.\n"
bell = "A bell rings down the line.\nYou put the whistle straight.\n"
# How play begins, the start room, what each room looks like, the ways, the closed doors, and what is said in a room behind each turn.
begins, start, looks, ways, closed, behind = {
    "two_rooms": (
        "",
        "Hall",
        {"Hall": "Hall\nA bare hall.\n", "Garden": "Garden\n"},
        {("Hall", "n"): "Garden", ("Garden", "s"): "Hall"},
        {},
        {},
    ),
    "doors_between_rooms": (
        "",
        "Hall",
        {"Hall": hall, "Garden": garden},
        {("Hall", "n"): "Garden", ("Garden", "s"): "Hall"},
        {("Hall", "d"): "The old hatch is closed.\n"},
        {},
    ),
    "lamp_in_a_dark_room": (
        "",
        "Mouth",
        {"Mouth": mouth, "Cave": dark, "Grotto": grotto},
        {("Mouth", "n"): "Cave", ("Cave", "e"): "Grotto", ("Cave", "s"): "Mouth", ("Grotto", "w"): "Cave"},
        {},
        {},
    ),
    "rules_and_scenes": (
        "The last train but one has left.\n",
        "Platform",
        {"Platform": platform, "Box": box},
        {("Platform", "e"): "Box", ("Box", "w"): "Platform"},
        {},
        {"Box": bell},
    ),
}[row.name]
turns = [place for place, command in enumerate(commands) if command != "undo"]


def looked(room, late):
    return looks[room].replace("LATE", str(late))


def transcript(refused):
    room, late, kept = start, 5, []
    text = begins + looked(room, late)
    for place, command in enumerate(commands):
        text += f"\n>{command}\n"
        if command == "undo":
            text += "Previous turn undone.\n" if kept else "You can't undo any further.\n"
            room, late = kept.pop() if kept else (room, late)
        elif place == refused:
            text += ABANDONED
        else:
            kept.append((room, late))
            beyond = room if command == "look" else ways.get((room, command))
            text += looked(beyond, late) if beyond else closed.get((room, command), "You can't go that way.\n")
            room = beyond or room
            if room in behind:
                text += behind[room]
                late -= 1
    return text + "\n>"


for refused in [None] + turns:
    (scratch / f"may{refused}").write_text(transcript(refused))
PY
}

passed=0
failed=0
for name in two_rooms lamp_in_a_dark_room doors_between_rooms rules_and_scenes which_box_is_meant storm_comes_again ball_is_weighed all_things_on_a_line; do
  row=$here/rows/$name
  "$program" compile "$row/source.i7" "$scratch/story" || exit 1
  expected || exit 1
  cmp -s "$row/transcript" "$scratch/mayNone" || { echo "refused memory: $name: the row's transcript isn't the expected one"; exit 1; }
  for form in run play; do
    play 0 $form || { echo "refused memory: $name: the plain $form fails"; exit 1; }
    cmp -s "$row/transcript" "$scratch/out" || { echo "refused memory: $name: the transcript of the plain $form differs"; exit 1; }
    count=$(cat "$scratch/count")
    abandoned=0
    for n in $(seq 1 "$count"); do
      play "$n" $form
      status=$?
      good=1
      if [ $status = 4 ]; then
        [ ! -s "$scratch/out" ] && [ "$(cat "$scratch/err")" = "i7story: out of memory" ] && good=0
      elif [ $status = 0 ]; then
        for may in "$scratch"/may*; do
          if cmp -s "$may" "$scratch/out"; then
            good=0
            [ "$may" != "$scratch/mayNone" ] && abandoned=$((abandoned + 1))
          fi
        done
      fi
      if [ $good = 0 ]; then passed=$((passed + 1)); else failed=$((failed + 1)); echo "refused memory: $name: $form: allocation $n: status $status"; fi
    done
    [ $abandoned -ge 3 ] || { failed=$((failed + 1)); echo "refused memory: $name: $form: only $abandoned turns were abandoned"; }
  done
done
echo "refused memory: $passed passed, $failed failed"
[ $failed = 0 ]
