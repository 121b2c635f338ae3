SET SCALE 6 ROUNDING HALF_UP;
INPUT "DS_1" ("Id_1" TEXT, "x" INTEGER, "y" INTEGER, "note" TEXT) KEY ("Id_1");
CREATE TABLE "DS_r" AS
  SELECT "a"."Id_1" AS "Id_1", "a"."x" AS "x", "a"."y" AS "y", "a"."x" + "a"."y" AS "z",
    "a"."note" AS "note"
  FROM "DS_1" AS "a";
EXPORT "DS_r" ORDER BY "Id_1";
