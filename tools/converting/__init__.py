"""What rad_convert is made of."""
