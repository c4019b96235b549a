# The parent comes first, and beside it stand three tasks that end at once.
#
# image: root ordered
# image: task parent ts 0
# image: task child ts 1
# image: task child ts 2
# image: task child ts 3
