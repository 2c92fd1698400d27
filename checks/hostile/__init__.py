"""Programs between devices that fail, at limits, on hostile files and streams."""
