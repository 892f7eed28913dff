"""What tools/timeline.py makes its page with: source (records and lines), model (what is known), words, chart, page."""
