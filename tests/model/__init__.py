"""An independent model of the fleet: the definitions, as plain sets.

A site of the model keeps every observation that it ever took in. What it holds, and what it answers, is worked out
afresh from that whole set at each call. Nothing is pruned, indexed or remembered. So the model is slow and short, and
shares neither code nor data structures with the program that is compared with it.

The modules, from the octets up:

    limits          numbers, kinds and types that all others name
    names           names: labels, octets, ancestors, text
    reading         messages and their names, read with the first fault
    writing         replies and queries, written
    observations    what is kept of a reply: kind, rank, stamp, life, body, preference
    replies         what a reply says: RRsets, the walk, the end, observations, the relay
    cache           what a set of observations holds, and what it answers
    frames          observations as frames, and back with the first fault
    open_questions  questions that wait for an upstream
    site            one site: each call is one step
    fleet           many sites and the frames that they sent
    words           the words of a script's line
    script          the lines of a script, and what they print

Beside them are `reached` (what was met, by count), `faults` (mistakes that can be switched on), `generator` (random
scripts), `compare` and `shrink` (a script through model and program), and `conversation`, `served` and `watched` (running
sites).
"""
