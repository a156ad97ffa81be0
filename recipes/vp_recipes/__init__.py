"""What the recipes know: streams, sheets, labels, images, and how vp is run. Each command of recipes/ is a module."""
import os

# The Python package is vp_recipes.vp, whatever else of its name is installed: in a clone its folder, below a prefix
# beside this folder, in a wheel beside this package.
_HERE = os.path.dirname(os.path.dirname(os.path.realpath(__file__)))
__path__ += [os.path.join(os.path.dirname(_HERE), 'python'), os.path.join(_HERE, 'python'), _HERE]
