# Makes annotations of GitHub Actions of the lines of `plc-show --plain`, by sed -E.
s/%/%25/g
s/^([^:]+):([0-9]+): note: (.*)$/::notice file=\1,line=\2::\3/
t
s/^([^:]+):([0-9]+): (.*)$/::error file=\1,line=\2::\3/
