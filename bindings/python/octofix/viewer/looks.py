"""What maps look like, in pictures and in pages."""

# The colours of heights, from low to high: violet, blue, green, yellow.
ANCHORS = (68, 1, 84), (59, 82, 139), (33, 145, 140), (94, 201, 98), (253, 231, 37)
# How bright the faces are that look up, along x and along y.
BRIGHTNESS = 1.0, 0.62, 0.8
