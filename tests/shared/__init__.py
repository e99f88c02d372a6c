"""What the scripts of tests/ share. Nothing here is taken from the code, the definitions or the proofs of crates/: task files, refusals
and meanings are written anew, from the documents.

files      task files: marks by name, rows in words, files made of them and taken apart
account    which files and plans are refused, and by what
tasks      tasks and plans that several scripts try
spelling   the one spelling of a task, by sorting
singling   a task with single literals in its effects, by the products of its clauses
searching  the search for a cheapest plan, by looking through lists
chance     random choices that are the same in every version of Python
stored     vectors as they stand in a crate: written, read, held to what they should be
weeks      a week of plans: its file, what is refused of it, its figures over what judge has to write
translated the translated task, row by row, and runs of lists on it
engine     the outside engine, gringo and clasp, over rules that stand beside the scripts
planning   the same engine as a planner, on task files and on PDDL
pddl       a parser of PDDL
pddl_lines a task without preferences as PDDL, line by line
programs   programs run in a folder of their own, with files that fail where asked
expected   something held to what it should be
"""
