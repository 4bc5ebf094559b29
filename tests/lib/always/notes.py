"""What does not hold, of what holds in every script."""
# What was noted, each once.
NOTED = []


def note(text):
    if text not in NOTED:
        NOTED.append(text)
