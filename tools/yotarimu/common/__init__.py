"""What all tools share: one sentence for whatever goes wrong, whole files or none, answers to an interrupt."""
