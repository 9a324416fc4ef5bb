import java.sql.Connection;
import java.sql.DriverManager;

/** A phantom in Apache Derby at SERIALIZABLE, with plain SQL. Debian's packages libderby-java and default-jdk-headless.
 *
 *      java -cp /usr/share/java/derby.jar DerbyPhantom.java
 *
 *  The first transaction counts a range, which is empty, and inserts a row in its lower part. The second inserts a row in its
 *  upper part, and commits. The first counts again. */
public class DerbyPhantom {
    static Connection open() throws Exception {
        var db = DriverManager.getConnection("jdbc:derby:memory:phantom;create=true");
        db.setAutoCommit(false);
        db.setTransactionIsolation(Connection.TRANSACTION_SERIALIZABLE);
        return db;
    }

    static void change(Connection db, String text) throws Exception {
        try (var statement = db.createStatement()) {
            statement.executeUpdate(text);
        }
    }

    static int count(Connection db) throws Exception {
        try (var statement = db.createStatement();
                var rows = statement.executeQuery("SELECT COUNT(*) FROM T WHERE K > 1000 AND K < 1010")) {
            rows.next();
            return rows.getInt(1);
        }
    }

    public static void main(String[] words) throws Exception {
        System.setProperty("derby.stream.error.file", "/dev/null");
        var first = open();
        change(first, "CREATE TABLE T (K INT PRIMARY KEY)");
        for (int k = 10; k <= 2000; k += 10) {
            change(first, "INSERT INTO T VALUES (" + k + ")");
        }
        first.commit();
        var second = open();
        System.out.println("Derby " + first.getMetaData().getDatabaseProductVersion());
        System.out.println("1 counts " + count(first));
        change(first, "INSERT INTO T VALUES (1003)");
        System.out.println("1 inserts 1003");
        change(second, "INSERT INTO T VALUES (1007)");
        second.commit();
        System.out.println("2 inserts 1007 and commits");
        System.out.println("1 counts " + count(first));
        first.commit();
    }
}
