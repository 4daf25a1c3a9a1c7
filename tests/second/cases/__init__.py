"""Cards and calls made for comparing programs."""
