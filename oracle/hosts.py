"""The calls that the program `test_hosts` makes, and the lines that it owes: those of oracle/exports.py, oracle/marks.py, oracle/batches.py and
oracle/heard.py.

  python3 oracle/hosts.py           write crates/test_hosts/data and crates/test_hosts/stdout
  python3 oracle/hosts.py --check   say whether the stored files are what would be written
"""

import batches
import exports
import heard
import marks
import stored

if __name__ == "__main__":
    stored.keep("test_hosts", exports.made(), marks.made(), batches.made(), heard.made())
