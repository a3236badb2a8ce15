import Lib
print(f(), g(), h())
