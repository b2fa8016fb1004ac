print(1,
  2,

      # more
3
)
