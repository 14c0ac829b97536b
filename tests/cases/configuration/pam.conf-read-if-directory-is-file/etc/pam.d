auth required m
