^
END
