"""A narrow bold face of our own drawing: its letters are skeletons along which a pen goes, at any size anew."""
