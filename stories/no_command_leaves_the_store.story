A session that is asked nothing answers nothing, and leaves the store as it was.

before:
  a/c/0/0 = 01 02 03
  b =

after: as before
