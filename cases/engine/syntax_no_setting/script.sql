INPUT "T" ("id" INTEGER, "k" INTEGER, "v" INTEGER) KEY ("id");
