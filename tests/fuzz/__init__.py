"""Generated streams and scripts."""
