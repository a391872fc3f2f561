"""The parts of ./seh-explain: what is in a source's way, its port, its run, its picture."""
