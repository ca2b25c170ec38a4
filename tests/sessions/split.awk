# Splits a session: what it sends to the file 'frames', and the answers that stand in it to the file 'wanted', a line each.
!/^#/ && !/^$/ { print frame_of($0) > frames; print bytes(right_of($0)) > wanted }
