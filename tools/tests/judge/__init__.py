"""A second planner, written from docs/RULES.md, docs/REASONS.md, docs/FORMAT.md and docs/DECISIONS.md alone.

It judges the program: over small problems that are made at random both must print the same bytes, and the tree must
lead to the goal in every world that the problem allows. It is plain before it is fast, and shares no line with the
program, nor any of the ways in which that saves work. A module stands for a rule:

    terms, problems             RULES 1 to 3; FORMAT 2 and 6
    lookup, closing, queries    RULES 4 to 8, 14
    interference, adds          RULES 9, 10
    progression, choices        RULES 11, 12
    settling, search            RULES 13, 15; what `recall` prints
    worlds                      RULES 3 and 16, by trying all worlds
    generator, templates        the problems, by chance and around one rule each
    alike, past                 problems of which objects are alike, or whose past stays open
    owing                       problems whose plans owe proofs by reasons that chance takes
    comparison, programs        what is compared, and with what
"""
