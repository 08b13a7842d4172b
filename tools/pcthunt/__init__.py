"""What tools/hunt is made of: rounds of campaigns, headings of their failures, and what is said of each."""
