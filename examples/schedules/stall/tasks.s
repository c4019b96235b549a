# The parent at timestamp 5 may make the first 60 of its children; this schedule doesn't come so far. The other task comes
# before it and ends at once.
#
# image: root ordered
# image: task parent ts 5
# image: task child ts 1
