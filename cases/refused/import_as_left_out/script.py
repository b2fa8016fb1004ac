import threading as t
