"""Images and what they are made of: sources, listings, and the plain reading of their instructions."""
