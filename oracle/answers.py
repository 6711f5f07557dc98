"""The cases of the program `test_answers`, and the lines that it owes: those of oracle/trees.py, oracle/hubs.py and oracle/lift.py.

  python3 oracle/answers.py           write crates/test_answers/data and crates/test_answers/stdout
  python3 oracle/answers.py --check   say whether the stored files are what would be written
"""

import hubs
import lift
import stored
import trees

if __name__ == "__main__":
    stored.keep("test_answers", trees.made(), hubs.made(), lift.made())
