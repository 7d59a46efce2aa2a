//! What the program says of itself.

pub const USAGE: &str = "\
usage: bench [PART..] [OPTION..]

parts; plans, stack, sheets and desk where none is named:
  plans            planning, a line for each size and working memory
  arrivals         planning of lists whose jobs arrive later, in waves and one by one, and what each rule that looks at arrivals pays
  changeovers      planning of lists whose modules rest between two jobs, and what each rule that looks at the changeover pays
  ends             the end alone beside planning, family by family: their ends are the same, and the ratio of their times
  sizes            the least module count beside planning, for the end in the list's own cabinet, 4/5 and 3/5 of it
  departures       who is late in lists of depots with departures at random, by the order of the jobs on the sheet
  ablation         what each rule of the search pays: the search in plain Rust with one rule left out
  gecode           the earliest end by MiniZinc's solver Gecode beside planning, where minizinc is installed
  stack            the stack that each call needs, planning at 20 jobs
  sheets           reading, labels and writing of the longest sheet
  desk             the desk's calls

options of plans, arrivals, changeovers, ends, sizes, ablation and gecode:
  --sizes N,N..    sizes of the lists (10,12; arrivals and changeovers 14,16,20)
  --hard           only the 28 families whose lists are the hardest
  --yard           lists of a yard's buses instead: nobody waits, some wait, more wait, quarter hours
  --family WORD    only families whose name has this word
  --seed NUMBER    seed of the lists (1; arrivals and changeovers 8117)
  --seeds N        plans, ends, sizes, ablation: lists at so many seeds, from that one on (1)
  --changeovers C,C..
                   changeovers: the minutes that a module rests (5,10)
  --lists FILE     lists from a file instead: 'name n N changeover', then n lines 'modules minutes earlier-jobs-in-hexadecimal arrival',
                   of which changeover and arrival may be left out
  --memory B,B..   lengths of the working memory, in bytes or with K or M (plans 0,4K,64K,1M,16M; the others 1M)
  --cutoff S       plans, arrivals, changeovers, gecode: processor seconds until a call is given up (1)
  --limit N        arrivals, changeovers, ablation: part-plans until a search is given up (300000)
  --full           sizes 10,12,14,16,20
  --each           plans, arrivals, changeovers, gecode: a line for each list too
  --bare           plans: the library is one without rules (tests/bare_search.py), and so is the plain search beside it
  --svg FILE       plans: a picture too, the share of the lists that are solved within a time
";
